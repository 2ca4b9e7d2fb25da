class A {
  void f() { }
  void g(@UnderInitialization A this) { }
  void h(@UnknownInitialization A this) { }
}
class B extends A {
  void f(@UnknownInitialization B this) { }
  void g(@UnknownInitialization B this) { }
  void h(@UnknownInitialization B this) { }
}
