class A {
  @Nullable A next;
  int n;
  static int and(@Nullable String s) { if (s != null && s.length() > 1) return s.length(); return 0; }
  static int or(@Nullable String s) { if (s == null || s.isEmpty()) return 0; return s.length(); }
  static int not(@Nullable String s) { if (!(s == null)) return s.length(); return 0; }
  static int choose(@Nullable String s) { return s == null ? 0 : s.length(); }
  static boolean value(@Nullable String s) { return s != null && s.isEmpty(); }
  static int swapped(@Nullable String s) { return null != s ? s.length() : 0; }
  static boolean nor(@Nullable String s, boolean b) { return !(s == null || !b) && s.isEmpty(); }
  static int both(@Nullable String s, @Nullable String t) {
    if (s == null || t == null) return 0;
    return s.length() + t.length();
  }
  static int kind(@Nullable Object o) { if (o instanceof A) return ((A) o).n; return 0; }
  static int other(@Nullable Object o) { if (!(o instanceof A)) return 0; return ((A) o).n; }
  static int deep(@Nullable A a) { return a != null && a.next != null ? a.next.n : 0; }
}
