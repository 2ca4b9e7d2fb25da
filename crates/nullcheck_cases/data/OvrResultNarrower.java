class A {
  @Nullable Object f() { return null; }
  @UnknownInitialization A g(@UnderInitialization A this) { return this; }
  A h() { return this; }
}
class B extends A {
  String f() { return ""; }
  @UnderInitialization B g(@UnderInitialization B this) { return this; }
  B h() { return this; }
}
