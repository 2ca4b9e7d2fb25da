class A {
  public String s;
  public A(boolean b) { if (b) { s = ""; } }
}
class B {
  public B() {
    this.start();
    take(this);
  }
  public void start() { }
  public static void take(B b) { }
  public String give(@Nullable String s) { return s; }
  public B self(@UnderInitialization B b) { return b; }
}
class C {
  public String get() { return ""; }
  public void put(@UnderInitialization C this) { }
}
class D extends C {
  public @Nullable String get() { return null; }
  public void put() { }
}
