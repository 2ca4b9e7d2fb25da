class A {
  String s;
  @Nullable String t;
  A(@Nullable String p) { s = p; t = p; }
  A(@Nullable String p, boolean b) { if (p != null) s = p; }
  A(@Nullable String p, boolean b, int n) { if (p != null) s = p; else s = "none"; }
}
