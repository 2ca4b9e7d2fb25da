class A {
  int n;
  void f(A x, int k) {
    y.f.g();
    ((A) y).foo();
    x.foo(y);
    y.f = z;
    boolean b = y == "a";
    (y).n = 1;
    x.foo().bar().n = 2;
    k = x.k.l + x.n;
    for (A a : x.as) a.n = 1;
    new A(y, x.m).foo();
    k = new A[y].size;
    (b ? x : y).foo();
    k = y ? 1 : 2;
    (y instanceof A).foo();
    (y == x).foo();
    (-y).foo();
    (x = y).foo();
    (y++).foo();
    k = y[k.l].m;
  }
}
