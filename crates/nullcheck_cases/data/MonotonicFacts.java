class A {
  @MonotonicNonNull A kept;
  @Nullable A plain;
  int n;
  void reset() { }
  void made(A a) {
    if (a.kept != null && a.plain != null) {
      new A();
      a.kept.reset();
      a.plain.reset();
    }
  }
  void loop(A a) {
    if (a.kept == null) { return; }
    while (n < 10) {
      a.kept.reset();
      n = n + 1;
    }
  }
  void put(A a, @Nullable A b) {
    a.kept = b;
    a.kept.reset();
  }
  private void told(A a) {
    if (a.kept != null) { reset(); a.kept.reset(); }
  }
  private void untold(A a) { a.kept.reset(); }
}
