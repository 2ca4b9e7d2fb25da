class WhyVoidedConstructor {
  @Nullable String held;
  WhyVoidedConstructor(WhyVoidedConstructor other) {
    if (other.held instanceof String) {
      new WhyVoidedConstructor(other);
      String s = other.held;
      s.length();
    }
  }
}
