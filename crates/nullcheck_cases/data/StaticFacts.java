class A {
  static int count;
  @Nullable A f;
  int n;
  static void tick() { count++; }
  static void call(A a) { if (a.f != null) { tick(); a.f.n = 1; } }
  static void named(A a) { if (a.f != null) { A.tick(); a.f.n = 1; } }
  static void write(A a) { if (a.f != null) { count = 2; A.count++; a.n = 3; a.f.n = 1; } }
}
