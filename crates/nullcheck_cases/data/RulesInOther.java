class B {
  static void f(@Nullable String s) { s.length(); }
}
