class A {
  private A parent;
  private A(A p) { parent = p; }
  static A root() { return new A(null); }
  A child() { return new A(this); }
  @Nullable A up() { return parent; }
  A top() { return parent; }
}
