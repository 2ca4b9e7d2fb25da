@Nullable @NonNull class A {
  @Nullable @NonNull String s;
  @Nullable String @NonNull @NonNull [] t = new @Nullable String[1];
  @Initialized @Initialized A() { }
  @Nullable @Nullable @Nullable A f(@Initialized @UnderInitialization A this, @Nullable @Initialized @NonNull @UnknownInitialization A x) {
    @NonNull @Nullable A l = null;
    t = new @Nullable @Nullable String[1];
    for (@NonNull @Initialized @NonNull String u : new String[] { }) ;
    return l;
  }
  @NonNull @Nullable void g() { }
}
