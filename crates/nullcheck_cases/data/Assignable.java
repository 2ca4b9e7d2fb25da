class A {
  final int n;
  final int m;
  int k = 1;
  A(final int x) { n = x; this.m = x; (this).m = 2; n++; if (k > 0) { ++this.n; } }
  A() { this.n = 1; m = 2; int[] b = new int[1]; b[0] = n; }
  void f(int x) {
    x = 1;
    final int y;
    y = x;
    while (x < 2) { y = x; x++; }
    k = x;
    this.k += 1;
    k--;
    final int[] b = new int[] { 1 };
    b[0] = b.length;
    for (int i : b) i = 3;
    for (final int i = 0; x < 2; x++) ;
  }
}
