class B extends A {
  @Nullable String f(String s) { A a = this; return a.f(null); }
  int g(A a) { return f(null) == null ? a.f("x").length() : 0; }
}
