class L {
  @MonotonicNonNull L f;
  void m() { }
  void reset() { f = null; }
  void t(L a) {
    if (a.f != null) { reset(); a.f.m(); }
  }
}
