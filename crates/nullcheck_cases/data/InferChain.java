class A {
  String f(@Nullable String s) { return ""; }
}
class B extends A {
  String f(String s) { return ""; }
}
class C extends B {
  String f(String s) { return ""; }
}
class D extends C {
  String f(String s) { return s; }
  int g(A a) { return a.f(null).length(); }
}
