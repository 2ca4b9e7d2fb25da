class WhyVoidedLoop {
  @Nullable String held;
  void reset() {
    this.held = null;
  }
  int size() {
    int n = 0;
    while (this.held != null) {
      n = n + this.held.length();
      reset();
      n = n + this.held.length();
    }
    return n;
  }
}
