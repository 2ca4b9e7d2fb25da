class R {
  private void f(String s) { g(s); }
  private void g(String s) { s.length(); h(s); }
  private void h(String s) { f(s); }
  void go() { f("a"); h(null); }
}
