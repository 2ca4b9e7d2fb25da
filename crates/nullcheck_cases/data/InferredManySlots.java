class A {
  private void f0(String s, A a) { f1(s, a); }
  private void f1(String s, A a) { f2(s, a); }
  private void f2(String s, A a) { f3(s, a); }
  private void f3(String s, A a) { f4(s, a); }
  private void f4(String s, A a) { f5(s, a); }
  private void f5(String s, A a) { f6(s, a); }
  private void f6(String s, A a) { f7(s, a); }
  private void f7(String s, A a) { f8(s, a); }
  private void f8(String s, A a) { f9(s, a); }
  private void f9(String s, A a) { f10(s, a); }
  private void f10(String s, A a) { f11(s, a); }
  private void f11(String s, A a) { f12(s, a); }
  private void f12(String s, A a) { f13(s, a); }
  private void f13(String s, A a) { f14(s, a); }
  private void f14(String s, A a) { f15(s, a); }
  private void f15(String s, A a) { f16(s, a); }
  private void f16(String s, A a) { f17(s, a); }
  private void f17(String s, A a) { f18(s, a); }
  private void f18(String s, A a) { f19(s, a); }
  private void f19(String s, A a) { f20(s, a); }
  private void f20(String s, A a) { f21(s, a); }
  private void f21(String s, A a) { f22(s, a); }
  private void f22(String s, A a) { f23(s, a); }
  private void f23(String s, A a) { f24(s, a); }
  private void f24(String s, A a) { f25(s, a); }
  private void f25(String s, A a) { f26(s, a); }
  private void f26(String s, A a) { f27(s, a); }
  private void f27(String s, A a) { f28(s, a); }
  private void f28(String s, A a) { f29(s, a); }
  private void f29(String s, A a) { s.length(); a.go(); }
  void go() { f0("x", this); f0(null, this); }
}
