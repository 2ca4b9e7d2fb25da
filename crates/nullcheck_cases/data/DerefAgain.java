class A {
  void m() { }
  static void f(@Nullable String s) { s.length(); s.length(); }
  static void g(@Nullable String s, boolean b) { if (s != null || b) s.length(); }
  static void h(@Nullable String s) { if (s != null && s.isEmpty()) return; s.length(); }
  static void k(@Nullable String s) { if (s == null) s.length(); }
  static int c(@Nullable String s, boolean b) { return b ? s.length() : 0; }
  static void n(@Nullable Object o) { if (!(o instanceof A)) ((A) o).m(); }
  static void v(@Nullable String s) { boolean b = s != null; if (b) s.length(); }
  static void p(@Nullable String s) { (s).length(); }
  static void i(boolean b) { String s = null; if (b) s = "x"; s.isEmpty(); }
}
