class A {
  String @MonotonicNonNull [] a;
  int @MonotonicNonNull [] n;
  void reset() { }
  int f() {
    if (a == null || n == null) { return 0; }
    reset();
    return a.length + n.length + a[0].length();
  }
}
