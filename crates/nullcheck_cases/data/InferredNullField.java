class A {
  private A never;
  void f() { if (never != null) { String s = null; s.length(); } never.f(); }
}
