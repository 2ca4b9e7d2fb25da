class A {
  static int f(String @Nullable [] a, @Nullable String[] b) {
    String @NonNull [] c = new String[] { "x" };
    if (a != null) c = a;
    String @Nullable [] d = a;
    @Nullable String @NonNull [] e = b;
    return c.length + e.length + (d == null ? 0 : d.length);
  }
}
