class WhyResult {
  private String find(boolean b) {
    return b ? "x" : null;
  }
  int size(boolean b) {
    return find(b).length();
  }
}
