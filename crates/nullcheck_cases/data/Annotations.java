@Nullable @Initialized class A {
  @Nullable String s;
  @NonNull A a = this;
  @Nullable String @Nullable [] b;
  String @NonNull [] c = new String[] { };
  int @Nullable [] d;
  @Nullable @UnderInitialization A() { }
  @NonNull @Initialized void v() { }
  @Override @Override int i() { return 1; }
  @Override public @Nullable @UnknownInitialization A f(@UnderInitialization A this, @Nullable @Initialized A x, @NonNull String @UnknownInitialization @Nullable [] y, final @NonNull A z) {
    @Nullable A l = x;
    final @NonNull @Initialized A m = z;
    @Nullable String[] n = new @Nullable String[1];
    @Nullable String @Nullable @Initialized [] o = n;
    for (@Nullable @Initialized String t : n) ;
    int @NonNull [] p = new int[1];
    n = new @Nullable String[] { "a", null };
    return l;
  }
  void g(@UnknownInitialization A this) { }
}
@UnderInitialization interface I { @Nullable I h(@Initialized I this); }
