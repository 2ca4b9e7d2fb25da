class A {
  @Nullable A g;
  int n;
  void m() { }
  static void f(@Nullable A a, String @Nullable [] s, @Nullable String t) {
    A u = a.g;
    a.g = u;
    a.m();
    int k = s.length;
    s[k] = s[k];
    k = t.length();
    a.n++;
    a.n += 1;
    for (String e : s) e.length();
  }
  static void h(A a, String[] s, String t) {
    A u = a.g;
    a.g = u;
    a.m();
    int k = s.length;
    s[k] = s[k];
    k = t.length();
  }
}
