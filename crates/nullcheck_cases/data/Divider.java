class Divider {
  static int divided(int a, int b) {
    return a / b;
  }
}
