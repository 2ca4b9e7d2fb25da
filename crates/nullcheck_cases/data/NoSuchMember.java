class A {
  int n;
  void v() { }
  int f(A a, int i, int[] b) {
    i = a.x + A.y + i.n + b.size + v().n + null.n;
    this.x = 1;
    A.y++;
    a.g();
    a.v(1);
    A.g();
    g();
    f(1);
    i.v();
    b.get(0);
    v().v();
    null.v();
    foo(z);
    Object o = new A(1, 2);
    o = new String("a");
    o = new Object(1);
    return o.n;
  }
}
