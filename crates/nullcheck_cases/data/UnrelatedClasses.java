class A {
  B b() { return new B(); }
  A f(B b, I i, A a, int[] n) {
    A t = b;
    t = i;
    i = a;
    t = (A) b;
    b = (A) b;
    f(b, b, n, new boolean[1]);
    this.b().n = a;
    for (String s : n) s.length();
    Object o = n;
    return true ? a : b;
  }
}
class B { int n; }
interface I { }
