class A {
  String f(@Nullable String s) { return s; }
}
