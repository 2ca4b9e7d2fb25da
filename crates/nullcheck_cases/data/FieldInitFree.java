class A {
  @Nullable A f;
  static void g(@UnderInitialization A a, @UnderInitialization A b) { a.f = b; }
  static void h(@UnderInitialization A a, A b) { a.f = b; }
  static void k(A a, A b) { a.f = b; }
  static void l(@UnderInitialization A a, @UnknownInitialization A b) { a.f = b; }
  A() { this.f = this; }
}
