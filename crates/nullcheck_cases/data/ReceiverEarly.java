class A {
  String s;
  A() {
    show();
    s = "x";
    this.show();
    A t = this;
    t.show();
    new A(this).show();
  }
  A(@UnderInitialization A a) { s = "y"; a.show(); }
  void show() { System.out.println(s); }
  void build(@UnderInitialization A this) { }
  void use(A a) { build(); a.build(); new A().build(); }
}
