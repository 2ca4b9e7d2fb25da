class A {
  static void copy(@Nullable String[] from, String[] to) {
    int n = 0;
    for (int i = 0; i < from.length; i++) {
      String s = from[i];
      if (s == null) continue;
      if (n == to.length) break;
      to[n] = s;
      n++;
    }
  }
  static void swap(A[] a, int i, int j) { A t = a[i]; a[i] = a[j]; a[j] = t; }
}
