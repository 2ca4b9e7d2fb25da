class StopSemicolon {
  void f() {
    f()
    g();
  }
}
