class A {
  int f(boolean b) { if (b) return 1; }
  String g() { return; }
  A h(boolean b) { while (b) return this; }
  boolean k(int n) { while (true) { if (n > 1) break; return false; } }
  int m(int n) { while (1 < 2) { n++; } }
}
