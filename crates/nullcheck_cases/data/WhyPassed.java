class WhyPassed {
  private WhyPassed(String first, String second) {
    second.length();
  }
  private WhyPassed() {
    this("", null);
  }
  private int count(WhyPassed other, String text) {
    return text.length();
  }
  int size(WhyPassed other, @Nullable String text) {
    return other.count(other, text);
  }
}
