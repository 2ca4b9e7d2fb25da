@Deprecated class A {
  @KeyFor String s;
  @Override String t;
  @Override A(@Owned A z) { }
  @Deprecated @Override void f(@Pure A this, @Override A x, String @Owned [] y, @Each String[] z) {
    @Override A l = x;
    final @Deprecated int i = 1, j = 2;
    @Nullable A[] n = new @Fresh @Nullable A[i];
    n = new @Nullable @Fresh A[] { };
    for (@Each String e : y) ;
    for (@First int k = 0; k < 2; k++) ;
  }
  @Result int g() { return 1; }
}
@Override interface I { @Deprecated void f(); }
