class WhyThree {
  void start() {
    first(null);
  }
  private void first(String s) {
    second(s);
  }
  private void second(String s) {
    third(s);
  }
  private int third(String s) {
    return s.length();
  }
}
