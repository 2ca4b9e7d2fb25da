class A {
  final int n = 1;
  static final int c = 2;
  int k = (n = 3);
  A(A a, final int p) {
    n = 4;
    this.n = 5;
    a.n = 6;
    p = 7;
    c = 8;
    A.c = 9;
  }
  void f(int[] b, final int q, final A a) {
    n = 1;
    this.n = 2;
    n++;
    --n;
    (a).n += 3;
    b.length = 4;
    b.length++;
    q = 5;
    final int y = 6, z;
    y = 7;
    z = y--;
    for (final int x : b) x = 8;
    for (final int i = 0; i < 2; i++) ;
    a = null;
    a.k = 9;
    n = u;
  }
}
class B extends A {
  B() { super(null, 1); n = 2; this.n = 3; }
  B(A o) { super(null, o.n = 4); }
  B(A o, int x) { super(null, n = 5); }
}
class C { private final int x = 1; static final int s = 1; }
class D { void f(C c) { c.x = 2; c.s = 3; C.s = 4; } }
