class A {
  void f(A x) { }
  final void g() { }
  static void h() { }
  void i() { }
  A j() { return null; }
  Object k() { return null; }
  private void l(A x) { }
}
class B extends A {
  void f(B x) { }
  void g() { }
  void h() { }
  static void i() { }
  Object j() { return null; }
  A k() { return null; }
  int l(B x) { return 0; }
}
