class A {
  @Nullable String[] f = new @Nullable String[3];
  String[] g = new String[] { "a" };
  Object[] h(String[] a) { return a; }
  @Nullable Object[] k(@Nullable String[] a) { return a; }
  void m(@Nullable String[] a, String[] b) {
    Object o = a;
    f = a;
    g = b;
    @Nullable Object[] p = a;
    int[] n = new int[2];
    boolean[] q = new boolean[] { true };
  }
}
