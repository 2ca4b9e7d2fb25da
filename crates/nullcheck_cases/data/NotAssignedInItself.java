class A {
  void f() {
    int x = x;
    String s = s + x;
    boolean b;
    if (x > 0 && (b = true)) System.out.println(b);
    if (!b) s = "";
  }
}
