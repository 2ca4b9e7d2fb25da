class A { void f(String s) { } void g(@Nullable String s) { } void h(@UnderInitialization A a, int n) { } }
class B extends A {
  void f(@Nullable String s) { }
  void g(@Nullable String s) { }
  void h(@UnknownInitialization A a, int n) { }
}
class C extends B { void f(@Nullable String s) { } }
