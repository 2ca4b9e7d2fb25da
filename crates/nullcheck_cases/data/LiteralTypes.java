class A {
  static void f(int n, String s) {
    f(1, 2);
    f(1, "x");
    boolean b = "a" == 1;
    b = 1 == 1;
  }
}
