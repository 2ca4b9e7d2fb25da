class A {
  void f() { int n = "a"; y = 1; }
}
