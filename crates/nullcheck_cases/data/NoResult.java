class A {
  int f() { }
}
