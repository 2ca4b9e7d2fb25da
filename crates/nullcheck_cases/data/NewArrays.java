class A {
  static void f(int n) {
    @Nullable String[] a = new @Nullable String[n];
    int[] b = new int[n + 1];
    boolean[] c = new boolean[2];
    String[] d = new String[] { "a", "b" };
    A[] e = new A[] { };
    @Nullable A[] g = new @Nullable A[] { null, new A() };
    int k = new int[3].length;
  }
}
