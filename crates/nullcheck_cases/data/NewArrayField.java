class A {
  final @Nullable A[] kids = new @Nullable A[4];
  int used;
  void add(A a) { kids[used] = a; used++; }
  @Nullable A first() { return used > 0 ? kids[0] : null; }
}
