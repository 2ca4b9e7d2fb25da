class A { void f(@UnderInitialization A a) { } void g(A a) { } void h(@UnknownInitialization A a) { } }
class B extends A {
  void f(A a) { }
  void g(@UnderInitialization A a) { }
  void h(A a) { }
}
