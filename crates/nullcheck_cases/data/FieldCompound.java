class A {
  @Nullable String s;
  String t = "";
  int n;
  void g(A a) { s += "x"; s.length(); t += null; a.s += a.t; n += a.s.length(); a.n++; --a.n; }
}
