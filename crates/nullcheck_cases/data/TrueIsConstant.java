class A {
  int w() { if (true) return 1; }
  int u(int n) { while (!(false || false)) { n++; } }
}
