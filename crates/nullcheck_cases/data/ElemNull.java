class A {
  static void f(String[] a, @Nullable String[] b, @Nullable String s) {
    a[0] = null;
    a[1] = s;
    a[2] = b[0];
    String[] c = new String[] { "x", null, s, b[1] };
    a[3] = a[4] = s;
    A[] d = new A[] { null };
  }
}
