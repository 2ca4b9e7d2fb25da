class A {
  int f(boolean b) { if (b) return 1; else return 2; }
  int g() { while (true) { } }
  int h(int n) { do { n = n - 1; if (n < 0) return n; } while (true); }
  int k(int n) { for (;;) { if (n > 9) return n; n++; } }
  void v(boolean b) { if (b) return; }
  A() { return; }
}
