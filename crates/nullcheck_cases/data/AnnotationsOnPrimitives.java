class A {
  @Nullable int n;
  @NonNull boolean[] b = new boolean[1];
  int @Nullable [] c;
  @Initialized int f(@Nullable int x, @NonNull int[] y, @Nullable @NonNull int z) {
    @Nullable boolean q = true;
    for (@NonNull int i : y) x = i;
    y = new @Nullable int[1];
    y = new @Nullable int[] { 1 };
    @Nullable int @Nullable [] w = y;
    return x;
  }
  @Nullable void g() { }
}
