class A { String s; int n; }
class B {
  String s;
  String t = "t";
  B(boolean b) { if (b) s = "x"; }
  B(B other, int n) { other.s = "x"; }
  B(B other, int n, int k) { this(true); }
  B() { super(); set(); }
  void set(@UnderInitialization B this) { s = "x"; }
}
