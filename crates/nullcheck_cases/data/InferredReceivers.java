class A {
  String s;
  A() { one(); s = "x"; }
  private void one() { two(); }
  private void two() { s.length(); open(); }
  void open() { two(); }
}
