class A {
  @Nullable String[] f = new String[] { "a" };
  String[] g(@Nullable String[] a) { return a; }
  void h(String[] b, @Nullable String[] a) {
    f = b;
    h(a, b);
    @Nullable Object[] p = b;
    Object[] q = true ? b : a;
    String[] r = new int[1];
  }
}
