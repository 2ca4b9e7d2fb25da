class A {
  boolean f(String s, Object o) { return s && o; }
  boolean g(String s, Object o) { return s || o; }
  void h(A a, A b, Object o, String s, int[] c) {
    if (a && b) ;
    boolean q = o && null || c;
    while (!(s || s)) ;
  }
}
