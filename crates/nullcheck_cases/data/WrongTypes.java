class A {
  int n = "a";
  String t() { return 1; }
  void g() { }
  void f(int k, A[] all) {
    String s = g();
    f("x", all);
    if (k) k = 1;
    boolean b = !k;
    k = -b;
    k = all[b].n;
    System.out.println(null);
    s = s + all;
  }
}
