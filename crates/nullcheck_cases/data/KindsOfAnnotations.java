class A {
  @Initialized A a;
  @UnderInitialization A b;
  @UnknownInitialization A[] c;
  A @Initialized [] d;
  void f(@Nullable A this, @Initialized A[] x, A @UnknownInitialization [] y) {
    @UnderInitialization A[] l = x;
    A @Initialized [] m = x;
    l = new @Initialized A[] { };
    @Nullable A[] n = new @Nullable @UnderInitialization A[1];
    for (@Initialized A z : x) ;
  }
  @UnderInitialization String[] g(@NonNull @UnderInitialization A this) { return new String[] { }; }
}
