class A {
  static @UnderInitialization A f(@UnderInitialization A a) { return a; }
  static @UnknownInitialization A g(A a, @UnderInitialization A b, boolean c) { return c ? a : b; }
  static A h(A a) { return a; }
  @UnderInitialization A self(@UnderInitialization A this) { return this; }
  A() { A a = self(); A b = f(this); }
}
