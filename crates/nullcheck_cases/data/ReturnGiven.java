class A {
  @Nullable String s;
  String f(@Nullable String t) { if (t == null) return ""; return t; }
  @Nullable String g(@Nullable String t) { return t; }
  String h() { if (s != null) return s; return "none"; }
  A k(A a) { return a == null ? this : a; }
  @Nullable A find(A[] all, int n) { for (A a : all) { if (n == 0) return a; n--; } return null; }
  String[] words() { return new String[] { "a", "b" }; }
}
