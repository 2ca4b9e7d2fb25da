class Counter {
  private String name;
  private String last;
  Counter(String n) { name = n; }
  void set(@Nullable String s) { if (s != null) last = s; }
  int length() { return name.length(); }
  int lastLength() { return last == null ? 0 : last.length(); }
}
