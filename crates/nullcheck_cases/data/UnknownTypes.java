class A {
  void f(Object o) {
    B b = new C();
    B[] bs = new B[2];
    b.g();
    bs[0].g(b);
    o = (D) o;
    boolean q = o instanceof E;
    for (F x : bs) x.g();
    o = new G[] { };
    System s;
    s = null;
    o = new System();
    final H h = null;
    h = null;
  }
}
