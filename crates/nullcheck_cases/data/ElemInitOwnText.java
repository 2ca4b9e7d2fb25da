class A {
  String s;
  A(String t) { s = t; String[] a = new String[] { s, this.s }; a[0] = s; }
}
