class A {
  @Nullable A f;
  A() { }
  A(@UnderInitialization A a) { f = a; }
  static A g(@UnderInitialization A a) { return a; }
  static @UnderInitialization A h(A a) { return a; }
  A k(@UnknownInitialization A this) { return this; }
  A m(@UnderInitialization A this) { return new A(this); }
  static A n(@UnderInitialization @Nullable A a) { return a; }
  A o(@UnderInitialization A this) { return f; }
}
