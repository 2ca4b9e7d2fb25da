class C {
  private String f;
  static void a(@Nullable String s) { b(s); new C(null); }
  private static void b(String s) { s.length(); }
  private static void c(String s) { s.length(); }
  private C(String s) { s.length(); }
  String get() { return f; }
}
