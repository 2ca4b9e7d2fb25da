class WhyVoidedTwice {
  @Nullable String held;
  void reset() {
    this.held = null;
  }
  int size() {
    if (held == null) {
      return 0;
    }
    reset();
    reset();
    return held.length();
  }
}
