class A {
  @Nullable A f;
  A() { }
  A(@UnknownInitialization A a) {
    @Initialized A b = this;
    @Initialized A c = a;
    @UnderInitialization A d = a;
    @UnderInitialization A e = new A();
    b = new A(this);
    @Initialized @NonNull A g = f;
  }
}
