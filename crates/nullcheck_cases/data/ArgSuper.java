class A {
  final String s;
  A(String s) { this.s = s; }
  void f(String t, int n, @Nullable A a) { }
}
class B extends A {
  B() { super("b"); }
  void f(String t, int n, @Nullable A a) { super.f(t, n, null); super.f(s, n + 1, this); }
}
