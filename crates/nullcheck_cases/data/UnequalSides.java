class A {
  boolean f(int n, boolean b, String s) {
    if (s == 1) return true;
    if (1 == s) return true;
    if (b == n) return true;
    if (n != b) return false;
    if (n < s) return false;
    return s.equals(n) && n;
  }
}
