class A {
  private static int only(String s, int n) { if (n > 0) return only(s, n - 1); return s.length(); }
  private static int never(String s) { return s.length(); }
}
