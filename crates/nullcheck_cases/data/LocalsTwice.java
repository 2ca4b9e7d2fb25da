class A {
  int n;
  void f(A x, int k) {
    String x = "";
    x.n = 1;
    int i = 0, i = 2;
    { int k; }
    for (int i = 0; i < k; i++) { int i; }
    for (A x : new A[] { x }) ;
    for (int j = 0; j < 2; j++) { int j = j; }
    int n = k, j = n;
  }
}
