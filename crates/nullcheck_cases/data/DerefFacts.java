class A {
  @Nullable A f;
  int n;
  void m() { }
  static void test(A a) { if (a.f != null) { System.out.println("x".length()); a.f.m(); } }
  static void write(A a, A b) {
    a.f = b;
    a.f.n = 1;
    a.f.n++;
    a.n = a.f.n;
  }
  void own() { f = this; f.n = 2; this.f.m(); }
  static void alias(A a) {
    A b = a.f;
    if (b != null) { a.m(); b.m(); }
  }
  static int instance(A a) { return a.f instanceof A && a.f.n > 0 ? a.f.n : 0; }
  static void early(A a) { if (a.f == null) return; a.f.m(); }
  static void joined(A a, A b) {
    a.f = b;
    if (b.n > 0) { a.f.n = 1; } else { a.f.n = 2; }
    a.f.n = 3;
  }
}
