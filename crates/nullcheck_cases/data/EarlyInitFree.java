abstract class A {
  A() { this.init(); }
  abstract void init(@UnderInitialization A this);
}
class B extends A {
  String s;
  B() { this.s = "b"; }
  void init(@UnderInitialization B this) { this.s.length(); }
}
