class A {
  String s = p;
  A(String p) { s = p; }
  A(String p, int q) { s = p; }
  A() { this("", 1); }
  void f(A[] as) {
    { int i = 0; }
    i = 1;
    for (int j = 0; j < 2; j++) ;
    j = 1;
    for (A y : y) ;
    for (A z : as) z.s = "";
    z.s = "";
    int x = x;
    if (as.length > 0) { int w = 1; } else { w = 2; }
    do { int v = 0; } while (v > 0);
    f(later);
    A[] later = as;
  }
}
