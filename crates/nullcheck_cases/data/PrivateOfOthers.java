class A {
  private int n;
  private static int c;
  private A(int x) { n = x; }
  A() { }
  private void f() { }
  private static void g() { }
}
class B {
  int k(A a) {
    a.n = 1;
    a.f();
    A.g();
    a = new A(5);
    A.c += a.n;
    return a.n + A.c;
  }
}
class C extends A {
  C() { super(1); }
  C(int x) { super(); }
  void m() {
    super.f();
    f();
    n = 2;
    this.n = 3;
  }
}
class D { private D() { } D(int x) { this(); } }
class E extends D { }
class F extends D { F(int x) { } F(int x, int y) { super(x); } }
