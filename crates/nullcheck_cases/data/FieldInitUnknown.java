class A {
  @Nullable A f;
  static void g(@UnknownInitialization A a, @UnderInitialization A b) { a.f = b; b.f = a; }
  static void h(A a, @UnknownInitialization A b) { a.f = b; b.f = a; }
  static void k(A a, @UnderInitialization @Nullable A b) { if (b != null) a.f = b; }
  static void m(A a, @UnderInitialization A b) { a.f = b; }
}
