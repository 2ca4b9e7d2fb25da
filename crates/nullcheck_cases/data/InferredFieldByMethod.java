class A {
  private String a = "x";
  private String b = "y";
  private String c = "z";
  void set(String s) { put(s, null); c = next(); }
  private void put(String s, String t) { a = s; b = t; }
  private String next() { return b; }
  int sum() { return a.length() + b.length() + c.length(); }
}
