class A {
  int n;
  static int c;
  A next;
  int f(int k, A a) {
    int i = k + n + c;
    { int j = i; i = j; }
    { int j = n; c = j; }
    for (int j = 0; j < i; j++) i = i - j;
    int j = a.n + A.c + this.n + next.next.n;
    for (A x : new A[] { a, this }) x.n = j;
    String A = "";
    return A.length() + System().n;
  }
  static int g(A a) { return c + a.n + h(A.c); }
  static int h(int n) { return n; }
  A System() { return this.next; }
}
