class A {
  @Nullable A f;
  A() { }
  A(@UnknownInitialization A a) { f = a; }
  A(@UnderInitialization A a, @UnknownInitialization A b) { f = b; }
  static void take(A a) { }
  static void give(@UnknownInitialization A u, @UnderInitialization A e, A c, @UnderInitialization @Nullable A n) {
    take(new A(u));
    take(new A(e));
    take(new A(c));
    A t = new A(u);
    t = new A(e, c);
    take(t);
    take(new A(n));
    take(new A(new A(c)));
  }
}
