class A {
  String[] f = new String[3];
  static void g(int n) {
    A[] a = new A[n];
    Object[] o = new Object[n];
    o = new String[] { "x" };
    int k = (new String[n]).length;
    h(new @NonNull String[2]);
  }
  static String[] h(String[] a) { return new String[a.length]; }
}
