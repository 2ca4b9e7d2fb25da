class A {
  void f(@Nullable String s) { }
}
class B extends A {
  protected void f(String s) { }
}
