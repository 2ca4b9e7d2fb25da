class WhyUnassigned {
  private String held;
  WhyUnassigned() {
  }
  int size() {
    return this.held.length();
  }
}
