abstract class C { abstract void m(); void p() { } }
interface I { void q(); }
abstract class D extends C implements I { }
class E extends D {
  void m() { super.m(); super.p(); }
  public void q() { super.q(); }
  void r() {
    C c = new C();
    I i = new I();
    i = new E();
    i = new D(z);
    C[] cs = new C[] { c };
    @Nullable I[] is = new @Nullable I[1];
  }
}
