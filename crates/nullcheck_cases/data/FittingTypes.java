class A {
  int n = 1 + 2 * 3;
  boolean b = 1 < 2;
  String s = "n" + 1 + true + null;
  Object o = new Object();
  static int twice(int k) { return k + k; }
  boolean same(A a, B b) { return a == b; }
  String text(boolean c) { return c ? "yes" : "no"; }
  void print() { System.out.println(twice(n)); System.out.println(s); System.out.println(b); }
}
class B extends A { }
