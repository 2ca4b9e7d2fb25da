class A {
  @Nullable A f;
  A() { }
  A(int n) { A t = own(); f = t; }
  static A chain(int n) {
    A a = new A();
    for (int i = 0; i < n; i++) { A b = new A(); b.f = a; a = b; }
    return a;
  }
  private A made() { return new A(); }
  A get() { return made(); }
  private A own() { return this; }
  A late() { A t = own(); return this; }
}
