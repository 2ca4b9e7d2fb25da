class A {
  static void f(A a) { }
  static void e(@UnderInitialization A a) { }
  A() { f(this); f(new A(this)); }
  A(@UnderInitialization A a) { f(a); e(a); }
  A(@UnknownInitialization A a, int k) { f(a); e(a); }
  void m(A a) { e(a); e(this); e(new A()); }
  static boolean same(String s, @UnderInitialization A a) { return s.equals(a); }
  static void g(@Nullable @UnderInitialization A a) { f(a); }
}
