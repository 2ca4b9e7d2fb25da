class A {
  void f() { }
  void g() { return f(); }
}
