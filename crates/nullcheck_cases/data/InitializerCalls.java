class A {
  String s = make();
  int n = size();
  @Nullable A self = this;
  A other = new A(1);
  A() { }
  A(int n) { other = this; self.make(); }
  String make() { return ""; }
  static int size() { return 1; }
}
