class StopShift {
  int f(int x) {
    return x << 1;
  }
}
