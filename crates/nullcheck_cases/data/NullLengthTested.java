class A {
  static void f() {
    String s = null;
    if (s != null) s.length();
  }
}
