class WhyVoided {
  @Nullable String held;
  void reset() {
    this.held = null;
  }
  int size() {
    if (this.held != null) {
      reset();
      return this.held.length();
    }
    return 0;
  }
}
