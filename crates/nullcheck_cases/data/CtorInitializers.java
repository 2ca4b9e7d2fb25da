class A {
  String a = "x";
  String b = a;
  A self = this;
  A(int n) { }
}
