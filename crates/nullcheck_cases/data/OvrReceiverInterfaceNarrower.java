interface I { void f(@UnknownInitialization I this); void g(); void h(@UnderInitialization I this); }
interface J extends I { void h(); }
class A implements I {
  public void f() { }
  public void g(@UnderInitialization A this) { }
  public void h(@UnknownInitialization A this) { }
}
