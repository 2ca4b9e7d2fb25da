class A {
  @MonotonicNonNull @MonotonicNonNull A a;
  @MonotonicNonNull @NonNull A b;
  @NonNull @MonotonicNonNull A c;
  @Nullable @MonotonicNonNull A d;
  @MonotonicNonNull @Initialized A e;
  String @MonotonicNonNull @Nullable [] f;
  @MonotonicNonNull String @MonotonicNonNull [] g;
  @NonNull String @MonotonicNonNull [] h;
  @MonotonicNonNull int @MonotonicNonNull [] i;
  @MonotonicNonNull @Nullable @NonNull A j;
  @Foo @MonotonicNonNull A k;
}
