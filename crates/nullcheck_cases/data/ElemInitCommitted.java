class A {
  final A[] all;
  A(A a) { all = new A[] { a, new A(a, 1) }; all[0] = a; }
  A(A a, int n) { all = new A[] { a }; }
  void f() { all[0] = this; A[] b = new A[] { this, all[0] }; }
}
