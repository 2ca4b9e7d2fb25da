class WhyCircle {
  private String even(int n) {
    if (n == 0) {
      return null;
    }
    return odd(n - 1);
  }
  private String odd(int n) {
    return even(n - 1);
  }
  int size(int n) {
    return odd(n).length();
  }
}
