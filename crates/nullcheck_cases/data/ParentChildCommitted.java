class Parent {
  Child child;
  Parent() { this.child = new Child(this); }
  public static void main(String[] args) {
    Parent p = new Parent();
    System.out.println(p.child.parent == p);
  }
}
class Child {
  Parent parent;
  Child(Parent p) { this.parent = p; }
}
