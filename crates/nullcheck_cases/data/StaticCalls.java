class F {
  static String id(@Nullable String s) { return s; }
  static void g() { id(null); h(null); }
  static void h(String t) { t.length(); }
}
