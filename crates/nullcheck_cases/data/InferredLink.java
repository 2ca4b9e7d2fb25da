class A {
  private A f;
  A(A a) { f = a; link(a); }
  private void link(A a) { a.f = this; }
}
