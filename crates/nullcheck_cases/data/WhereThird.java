class WhereThird {
  void put(String a, String b, String c) {
  }
  void call(@Nullable String s) {
    put("a", s, "c");
    put(s, "b", s);
  }
}
