class WhyUnkeptElement {
  int size(@Nullable String[] names, int i) {
    if (names[i] == null) {
      return 0;
    }
    int n = names[i].length();
    if (names[i + 1] instanceof String) {
      n = n + names[i + 1].length();
    }
    return n;
  }
}
