class A {
  private A none() { return none(); }
  void use() { none().use(); String s = null; if (none() == null) s.length(); }
}
