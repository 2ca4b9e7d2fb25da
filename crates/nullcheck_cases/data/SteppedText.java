class A {
  void g(String s) { s++; }
  void h(String s) { --s; }
}
