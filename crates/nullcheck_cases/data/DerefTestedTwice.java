class A {
  static void main() {
    String s = null;
    s.length();
    if (s == null) { s = "x"; s.length(); }
    s.length();
  }
}
