interface I { void f(@UnderInitialization I this); }
class A implements I {
  A() { f(); }
  public void f(@UnderInitialization A this) { }
}
