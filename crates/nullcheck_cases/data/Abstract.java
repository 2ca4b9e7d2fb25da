abstract class A {
  abstract void f();
  abstract void g() { }
  private abstract void h();
  void i();
}
class B extends A { }
class C extends A {
  void f() { }
  void g() { }
}
class D {
  abstract void j();
}
interface I {
  void k();
}
class E implements I { }
abstract class F implements I { }
class G extends F {
  public void k() { }
}
