class WhyUnkeptResult {
  @Nullable String held;
  @Nullable String find(int n) {
    return held;
  }
  int size() {
    if (find(1) == null) {
      return 0;
    }
    while (find(1) != null) {
      return find(1).length();
    }
    return 0;
  }
}
