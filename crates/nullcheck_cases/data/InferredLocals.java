class A {
  private static int twice(String s) { String t = s; if (t == null) t = ""; return length(t) + length(t); }
  private static int length(String s) { return s.length(); }
  private static String pick(boolean b, String s, String t) { return b ? s : t; }
  static int use(@Nullable String s, boolean b) { return twice(s) + pick(b, "a", "b").length(); }
  static int first(@Nullable String s) { String t = pick(true, "x", s); return t == null ? 0 : t.length(); }
}
