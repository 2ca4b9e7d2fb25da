class A {
  static void f(@Nullable String s) {
    s.length();
    int n = s;
    String[] a = new String[2];
  }
}
