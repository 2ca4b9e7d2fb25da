class A {
  static String[] none() { return new String[] { }; }
  static @Nullable String[] some(int n) {
    @Nullable String[] a = new @Nullable String[n];
    if (n > 0) a[0] = "x";
    return a;
  }
  static String @Nullable [] perhaps(boolean b) { return b ? none() : null; }
  static int count(String @Nullable [] a) { return a == null ? 0 : a.length; }
}
