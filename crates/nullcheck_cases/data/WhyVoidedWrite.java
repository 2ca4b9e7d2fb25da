class WhyVoidedWrite {
  @Nullable String held;
  int size(WhyVoidedWrite other, @Nullable String s) {
    if (other.held != null) {
      this.held = s;
      return other.held.length();
    }
    return 0;
  }
  int next(WhyVoidedWrite other, WhyVoidedWrite more) {
    if (other.held == null) {
      return 0;
    }
    other = more;
    return other.held.length();
  }
}
