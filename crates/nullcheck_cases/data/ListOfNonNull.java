class A {
  static void f() {
    @Nullable String[] a = new String[] { "a" };
  }
}
