class A {
  void f(@UnderInitialization A this) { }
}
class B extends A {
  String s;
  B() { this.s = ""; }
  void f() { this.s.length(); }
}
