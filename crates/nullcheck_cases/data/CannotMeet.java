class A {
  static boolean f(int[] n, A a) { return n instanceof A || n == a; }
  static A g(int[] n) { return (A) n; }
}
