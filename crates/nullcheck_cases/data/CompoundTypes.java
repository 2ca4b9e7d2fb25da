class A {
  boolean q;
  void f(int i, String t, boolean p) {
    q += 1;
    i += "x";
    t += i;
    t += null;
    t -= 1;
    i *= p;
  }
}
