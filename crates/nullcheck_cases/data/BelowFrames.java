class BelowFrames {
  static void f(int n) {
    if (n > 0) {
      f(n - 1);
      return;
    }
    String s = null;
    s.length();
  }

  public static void main(String[] args) {
    f(300);
  }
}
