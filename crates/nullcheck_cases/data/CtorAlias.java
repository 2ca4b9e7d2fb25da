class A {
  String s;
  A() { A t = this; t.s = "x"; }
  A(@UnderInitialization A a) { a.s = "x"; }
  A(boolean b, int n) { (this).s = "x"; }
}
class B extends A {
  String u;
  B(int n) { super(true, n); s = "y"; }
}
