class A {
  String name = null;
  String[] words = new String[] { };
  A(@Nullable String s) { if (s == null) name = s; }
  void set(@Nullable String s, boolean b) {
    name = s;
    this.name = b ? "x" : null;
    words = null;
    if (s != null || b) name = s;
    name = (s);
  }
}
