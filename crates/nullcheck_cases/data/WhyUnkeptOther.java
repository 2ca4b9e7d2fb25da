class WhyUnkeptOther {
  @Nullable String find(int n) {
    return null;
  }
  int size(@Nullable String[] names, @Nullable String[] others, @Nullable String text, int i) {
    if (names[0] != null) {
      return names[1].length();
    }
    if (others[i] != null) {
      return names[i].length();
    }
    if (find(1) != null) {
      return find(2).length();
    }
    boolean none = text == null;
    return text.length();
  }
}
