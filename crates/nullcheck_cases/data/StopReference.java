class StopReference {
  void f() {
    r = A::f;
  }
}
