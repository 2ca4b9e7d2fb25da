interface I { void m(); }
interface J extends I { void m(); }
abstract class A {
  private String f;
  String g = "";
  abstract void k();
}
class B extends A implements J {
  public void m() { }
  void k() { }
}
class D {
  public void m() { }
}
class E extends D implements I { }
