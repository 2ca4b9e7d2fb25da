class A {
  String[] words = new String[] { "x" };
  A f;
  A(A a) { f = a; }
  static int g(@UnderInitialization A a) {
    int n = a.words.length;
    String[] w = a.words;
    if (w != null) n += w[0].length();
    A h = a.f;
    if (h != null) { n += h.words.length; h.m(); }
    return n;
  }
  void m() { }
}
