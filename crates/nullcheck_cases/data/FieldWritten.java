class A {
  String name = "";
  @Nullable String note;
  A other;
  A(A other) { this.other = other; }
  void rename(@Nullable String s) { if (s != null) name = s; note = s; }
  void clear() { note = null; name = "x"; }
  void swap(A a) { A t = a.other; a.other = other; other = t; }
  void choose(@Nullable String s) { name = s == null ? "none" : s; }
  static void chain(A a, A b) { a.other = b.other = a; }
}
