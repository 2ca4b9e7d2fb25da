class P { private static int x; private int y; private void f() { } private static void g() { } }
abstract class Q { private Q() { } }
class R {
  int f(P p) {
    Object o = new Q();
    P.f();
    p.g();
    return p.x + P.y;
  }
}
