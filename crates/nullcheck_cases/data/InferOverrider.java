class A {
  void f(@Nullable String s) { }
}
class B extends A {
  void f(String s) { s.length(); }
}
