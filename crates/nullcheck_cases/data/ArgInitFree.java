class A {
  static void f(@UnderInitialization A a) { }
  static void u(@UnknownInitialization A a) { }
  A() { f(this); u(this); u(new A(this)); }
  A(@UnderInitialization A a) { f(a); u(a); }
  void m() { u(this); u(new A()); }
  static boolean same(String s, @Nullable A a) { return s.equals(a); }
}
