class A {
  String s;
  A() { first(); s = "x"; second(); }
  private void first() { System.out.println("early"); }
  private void second() { if (this.s != null) System.out.println(this.s.length()); }
  void later() { second(); }
}
