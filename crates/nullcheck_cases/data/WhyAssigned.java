class WhyAssigned {
  @Nullable String held;
  void reset() {
    this.held = null;
  }
  int size() {
    this.held = "";
    reset();
    return this.held.length();
  }
  int next(WhyAssigned other, WhyAssigned more) {
    other.held = "";
    other = more;
    return other.held.length();
  }
  int none(@Nullable String s) {
    this.held = s;
    reset();
    return this.held.length();
  }
}
