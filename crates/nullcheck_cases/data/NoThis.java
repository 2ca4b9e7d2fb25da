class A {
  int n;
  static int c;
  void f() { }
  int k() { return n; }
  static int t() { return c; }
  A(int x, int y) { n = x + y; }
  static void s() {
    int i = this.n + n + c + t();
    f();
    n = 1;
    --n;
    A a = this;
    a = (this);
    s();
    A.s();
    i = new A(1, 2).n;
  }
}
class B extends A {
  int m;
  B() { super(m, this.m); }
  B(int x) { super(k(), n = x); }
  B(int x, int y) { this(super.k() + c + t()); }
  B(int x, int y, int z) { this(new B(this.m).m); }
  static int u() { return super.k() + super.none(); }
}
