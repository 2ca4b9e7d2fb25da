class WhyField {
  private String held = "";
  void forget() {
    this.held = null;
  }
  int size() {
    return this.held.length();
  }
}
