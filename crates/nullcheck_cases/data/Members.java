class A {
  int n;
  static int c;
  A next;
  A() { }
  A(int x) { n = x; }
  int f() { return n; }
  int f(int x) { return x; }
  static int g() { return c; }
}
abstract class C extends A {
  abstract int m(int[] b);
  int p() { return 1; }
}
interface I { int q(); }
class B extends C implements I {
  B(int y) { super(); n = y; }
  B() { }
  int f() { return super.f(1) + super.f() + super.p(); }
  int m(int[] b) { return b.length; }
  public int q() { return 0; }
  int h(int[] b, A[] as, I e) {
    int i = as[0].next.n + A.c + c + A.g() + g() + B.g() + B.c + b.length + e.q();
    for (int x : b) i = i + x;
    for (A x : (as)) i = x.f(i);
    b[0] = (as)[1].f(2) + new int[] { 1, 2 }.length;
    A a = new A();
    a = new B(3);
    a.next = new B();
    C d = new B(4);
    Object o = new Object();
    return d.m(b) + d.n;
  }
}
