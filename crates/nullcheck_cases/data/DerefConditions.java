class A {
  static void f(@Nullable String s, boolean b) { if (b ? s != null : false) s.length(); }
  static void g(@Nullable String s) { if ((s != null) == true) s.length(); }
  static void h(@Nullable String s) { if (((s)) != null) s.length(); }
  static void k(@Nullable String s, boolean b) { if (b = s != null) s.length(); }
  static void l(@Nullable String s) { if (!!(s != null)) s.length(); }
  static void m(@Nullable String s, @Nullable String t) { if (!(s == null && t == null)) s.length(); }
  static void n(@Nullable String s, @Nullable String t) { if (!(s == null || t == null)) s.equals(t); }
  static void o(@Nullable String s) { if (s == null == false) s.length(); }
  static void p(@Nullable String s) { while (true && s != null) { s.length(); break; } }
  static void q(@Nullable String s) { if (false || s == null) return; s.length(); }
  static void r(@Nullable String s) { if (s == null) s = ""; s.length(); }
  static void t(@Nullable String s, String u) { if ((s = u) != null) s.length(); s.length(); }
}
