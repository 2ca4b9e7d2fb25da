class A {
  static void f(String s) { }
  static void g(@Nullable String t, boolean b, A a) {
    f(t);
    f(null);
    f(b ? t : "x");
    f((t));
    new A(t);
    new A("x", null);
    A.f(t);
    if (t == null || b) f(t); else f(t);
  }
  A(String s) { }
  A(String s, A a) { this(null); }
}
