class A {
  A f;
  String s;
  int n;
  A(A f, String s) { this.f = f; this.s = s; }
  static int g(@UnknownInitialization A a) {
    int k = a.n;
    k += a.s.length();
    if (a.s != null) k += a.s.length();
    k += a.f.n;
    if (a.f != null) k += a.f.n + a.f.s.length();
    return k;
  }
}
