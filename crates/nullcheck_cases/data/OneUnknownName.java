class A {
  void f() {
    int x; x = x + y;
  }
}
