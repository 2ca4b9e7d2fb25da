class A {
  private int n;
  private static int c;
  private A(int x) { n = x; }
  A() { this(1); }
  private void f() { }
  private static void g() { }
  void h(A a) {
    a.n = 1;
    this.n = A.c;
    A.c = n;
    a.f();
    f();
    A.g();
    g();
    a = new A(3);
  }
}
class B extends A {
  int n() { return 1; }
  void f(int x) { }
}
