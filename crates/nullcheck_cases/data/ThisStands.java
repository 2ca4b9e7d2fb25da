class A {
  int n = 1;
  int m = this.n + n + k();
  static int c;
  A(int x) { n = x; this.m = k(); }
  A() { this(c + t() + A.c); }
  int k() { return n; }
  static int t() { return new A().n; }
}
class B extends A {
  B() { super(c); }
  B(int x, A o) { this(); o.n = m; }
  int k() { return super.k() + this.m + m; }
}
