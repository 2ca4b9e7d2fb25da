class StopThrows {
  void f() throws E { g(); }
}
