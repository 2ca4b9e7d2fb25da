class L {
  @Nullable L f;
  void m() { }
  void reset() { }
  void t(L a) {
    if (a.f != null) { reset(); a.f.m(); }
  }
}
