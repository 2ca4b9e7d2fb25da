class StopString {
  void f() {
    g("a" "b");
  }
}
