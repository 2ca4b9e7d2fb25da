class A {
  int n;
  static int c;
  void f() { }
  static void g() { }
  void h(A a) {
    a.c = 1;
    a.g();
    this.c++;
    this.g();
    n = (a).c;
    A.n = 3;
    A.f();
    B.n = B.c;
  }
}
class B extends A {
  void k() { super.g(); super.none(); super.f(); super.f(1); }
}
