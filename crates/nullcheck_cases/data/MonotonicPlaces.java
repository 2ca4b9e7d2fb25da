class A {
  @MonotonicNonNull int n;
  @MonotonicNonNull String[] s;
  @MonotonicNonNull @Nullable A t;
  static @MonotonicNonNull A u;
  @MonotonicNonNull A v;
  String @MonotonicNonNull [] w;
  @MonotonicNonNull A f(@MonotonicNonNull A a) { @MonotonicNonNull A l = a; return l; }
}
