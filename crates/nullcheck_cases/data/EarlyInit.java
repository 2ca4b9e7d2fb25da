abstract class A {
  A() { this.init(); }
  abstract void init();
}
class B extends A {
  String s;
  B() { this.s = "b"; }
  void init() { this.s.length(); }
}
