class StopEach {
  void f(A[] xs) {
    for (final A x : xs) throw e;
  }
}
