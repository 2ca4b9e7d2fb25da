class A {
  static void f(@Nullable String @Nullable [] a, String @Nullable [] b) {
    a[0] = null;
    if (a != null) a[1] = null;
    if (b != null) { b[0] = "x"; b[1] = null; }
    if (a != null) a[0].length();
    if (a != null && a[0] != null) a[0].length();
    if (b != null) b[0].length();
  }
}
