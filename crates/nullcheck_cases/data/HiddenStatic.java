class A {
  static int m(String s) { return 0; }
  static int n(int x) { return 0; }
  private static int o(int x) { return 0; }
}
class B extends A {
  static int m(Object o) { return 0; }
  static int n(int y) { return 0; }
  static int o(boolean x) { return 0; }
}
