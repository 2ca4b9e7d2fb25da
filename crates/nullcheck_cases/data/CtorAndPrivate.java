class C {
  private C f;
  String g;
  int h;
  C(boolean b) { this.m(b, "x"); if (b) { this.f = this; } }
  private void m(boolean b, String s) { }
  @Nullable C get() { return f; }
}
