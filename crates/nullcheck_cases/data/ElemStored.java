class A {
  static void f(String[] a, @Nullable String[] b, @Nullable String s) {
    a[0] = "x";
    b[0] = null;
    b[1] = s;
    b[2] = a[0];
    if (s != null) a[1] = s;
    String[] c = new String[] { "x", a[0] };
    @Nullable String[] d = new @Nullable String[] { null, s, "x" };
    int[] e = new int[] { 1, 2 };
    e[0] = e[1];
  }
}
