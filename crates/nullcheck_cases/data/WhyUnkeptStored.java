class WhyUnkeptStored {
  @Nullable String held;
  int size(@Nullable String name, boolean more) {
    boolean there = name != null && more;
    if (there) {
      return name.length();
    }
    boolean none = held == null;
    if (!none) {
      return held.length();
    }
    return 0;
  }
}
