class A {
  A out;
  int n;
  void println(int x) { }
  void println() { }
  void f(A System) {
    System.out.n = 1;
    System.out.println(1);
    System.out.println();
    System.println(2);
  }
}
class B {
  A System;
  void f() { System.out.println(1); System.out.println(); }
}
