class A {
  String b = this.a;
  String a = "x";
  String c = this.a + a.length();
}
