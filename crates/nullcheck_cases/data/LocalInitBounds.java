class A {
  @Nullable A f;
  A() { }
  A(@UnknownInitialization A a) {
    @UnderInitialization A b = this;
    @UnknownInitialization A c = this;
    c = a;
    @Initialized A d = new A();
    @UnderInitialization @Nullable A e = null;
    e = this;
    @NonNull A g = this;
    @Nullable A h = a;
    f = c;
  }
}
