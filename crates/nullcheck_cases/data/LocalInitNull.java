class A {
  @Nullable A f;
  A(@UnderInitialization A a) { f = a; }
  void g(A a) {
    @Initialized A b = a;
    b = f;
    @Initialized A c = this;
    @Initialized @NonNull A d = c;
    @UnknownInitialization A e = b;
  }
  static void s(@UnderInitialization A a) {
    @UnderInitialization A b = a;
    b = null;
    @UnderInitialization A c = new A(a);
  }
}
