class L {
  @Nullable L f;
  void m() { }
  void reset() { f = null; }
  void t(L a, L b) {
    if (a.f != null) { b.f = null; a.f.m(); }
  }
}
