class StopLambda {
  void f() {
    r = x -> x;
  }
}
