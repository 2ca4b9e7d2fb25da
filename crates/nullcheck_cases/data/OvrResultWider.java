class A { String f() { return ""; } A g() { return this; } Object h() { return ""; } }
class B extends A {
  @Nullable String f() { return null; }
  @UnknownInitialization A g() { return this; }
  @Nullable String h() { return null; }
}
