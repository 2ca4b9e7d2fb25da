class WhyVoidedAgain {
  @Nullable String held;
  void reset() {
    this.held = null;
  }
  int size(boolean b) {
    if (this.held != null) {
      reset();
      if (this.held == null) {
        return 0;
      }
    }
    return this.held.length();
  }
}
