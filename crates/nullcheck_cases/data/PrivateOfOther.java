class C {
  static void a(@Nullable String s) { D.d(s); }
}
class D {
  private static void d(String s) { }
}
