class A {
  public String s;
  public A(boolean b) { if (b) { s = ""; } else { s = "x"; } }
}
class B {
  public B() {
    this.start();
    take(this);
  }
  public void start(@UnderInitialization B this) { }
  public static void take(@UnderInitialization B b) { }
  public @Nullable String give(@Nullable String s) { return s; }
  public @UnderInitialization B self(@UnderInitialization B b) { return b; }
}
class C {
  public @Nullable String get() { return ""; }
  public void put() { }
}
class D extends C {
  public String get() { return ""; }
  public void put(@UnknownInitialization D this) { }
}
