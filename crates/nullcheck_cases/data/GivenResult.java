class A {
  A() { return 1; }
  void f(boolean b) { if (b) return "x"; return; }
  void g() { f(true); return this; }
  void h() { return; return 1; }
}
