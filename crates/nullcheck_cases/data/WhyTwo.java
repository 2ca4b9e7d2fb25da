class WhyTwo {
  private String held = "";
  void given(@Nullable String s) {
    this.held = s;
  }
  void forget() {
    this.held = null;
  }
  void clear() {
    this.held = null;
  }
  int size() {
    return this.held.length();
  }
}
