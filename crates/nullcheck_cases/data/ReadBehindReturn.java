class A {
  int f(int n) { int k; return n; return k; }
}
