class Shared {
  private String a, b = "b";
  Shared(String t) { a = t; }
  void clear() { a = null; }
}
