class StopEnd {
  void f() {
    g(1, 2
