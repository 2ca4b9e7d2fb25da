class A {
  private int first(String s) { return second(s); }
  private int second(String s) { return third(s) + s.length(); }
  private int third(String s) { return s == null ? 0 : s.length(); }
  int go(@Nullable String s) { return first(s); }
}
