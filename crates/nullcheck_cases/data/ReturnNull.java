class A {
  @Nullable String s;
  String f(@Nullable String t) { return t; }
  String g() { return null; }
  String h() { return s; }
  A k(@Nullable A a) { if (a != null) return a; return a; }
  String m(@Nullable String[] all, int n) { return all[n]; }
  String[] n(boolean b) { return b ? null : new String[] { "x" }; }
  String o(A a) { if (a.s != null) { f(""); return a.s; } return ""; }
}
