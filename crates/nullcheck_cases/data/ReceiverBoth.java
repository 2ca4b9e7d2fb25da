class A {
  void m() { }
  static void f(@Nullable @UnderInitialization A a, @Nullable @UnknownInitialization A b) {
    a.m();
    if (b != null) b.m();
    if (a != null) return;
    a.m();
  }
}
