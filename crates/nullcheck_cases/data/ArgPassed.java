class A {
  static void f(String s) { }
  static void n(@Nullable String s) { }
  static void g(@Nullable String t) { n(t); n(null); n("x"); if (t != null) f(t); f("x"); f("a" + t); }
  A(String s) { f(s); }
  A(@Nullable String s, int k) { this(s == null ? "" : s); }
  static A h() { return new A("x"); }
}
