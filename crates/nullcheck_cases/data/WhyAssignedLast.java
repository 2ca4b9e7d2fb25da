class WhyAssignedLast {
  @Nullable String held;
  void reset() {
    this.held = null;
  }
  int first() {
    if (this.held == null) {
      return 0;
    }
    this.held = "";
    reset();
    return this.held.length();
  }
  int second() {
    this.held = "";
    if (this.held != null) {
      reset();
      return this.held.length();
    }
    return 0;
  }
}
