class A {
  int f(String s) { return 1; s = null; s.length(); }
  A g() { while (true) { } return null; }
}
