class A {
  String s = null;
  A() { }
  A(int n) { }
  A(int n, int k) { this(); }
}
