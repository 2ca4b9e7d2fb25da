class A {
  @Nullable A f;
  void g() { }
  static void test(A a, A b) { if ((a = b).f != null) a.f.g(); }
  static void write(A a, A b) { (a = b).f = b; a.f.g(); }
  static void copied(A a, A b) { a.f = (a = b); a.f.g(); }
  static void through(A p, @Nullable A x) { if ((p.f = x) != null) x.g(); }
  static void parens(A a) { if ((a).f != null) (a).f.g(); }
  static void chosen(A a, A b, boolean c) { if ((c ? a : b).f != null) (c ? a : b).f.g(); }
  static void cast(A a) { if (((A) a).f != null) a.f.g(); }
}
