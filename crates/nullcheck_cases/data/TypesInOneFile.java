class A {
  static void f(@Nullable String s) { int n = s; }
}
