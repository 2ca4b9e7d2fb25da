class A {
  @Nullable A f;
  @Nullable A g;
  int n;
  void m() { }
  A self() { return this; }
  static void call(A a) { if (a.f != null) { a.m(); a.f.m(); } }
  static void made(A a) { if (a.f != null) { new A(); a.f.m(); } }
  static void moved(A a, A b) { if (a.f != null) { a = b; a.f.m(); } }
  static void wrote(A a, A b) { if (a.f != null) { b.f = a.g; a.f.m(); } }
  static void other(A a, A b) { if (a.f != null) { b.g = null; a.f.m(); } }
  static void deep(A a) { if (a.f != null && a.f.f != null) a.f.f.m(); }
  static void result(A a) { if (a.self().f != null) a.self().f.m(); }
  static void assigned(A a, @Nullable A b) { a.f = b; a.f.m(); }
  static void alias(A a, A b) { if (a.f != null) b.f.m(); }
  static void loop(A a) { if (a.f != null) while (a.n > 0) { a.f.m(); } }
  static void quiet(A a) { if (a.f != null) while (a.n > 0) { a.f.n--; a.n--; } }
  static void argument(A a) { if (a.f != null) take(a.self(), a.f.n); }
  static void before(A a) { if (a.f != null) take(a, a.f.n); }
  static void take(A a, int n) { }
}
