class A {
  final String s;
  A(String s) { this.s = s; }
  A() { this("a"); }
  A(int n, int k) { this(); }
}
class B extends A {
  final A other;
  B(A other) { super("b"); this.other = other; }
  B() { this(new A()); }
}
class C extends A { }
