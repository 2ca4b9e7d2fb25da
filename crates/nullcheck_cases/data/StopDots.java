class StopDots {
  void f(int... xs) { }
}
