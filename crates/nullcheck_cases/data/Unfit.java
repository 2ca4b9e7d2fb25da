class Unfit {
  int n;
  String s = "";
  void f(Unfit o) { }
  void g() { }
  int h(int[] a, boolean b, Unfit o) {
    int i = "a";
    boolean c = 1;
    String t = o;
    UnfitPart p = o;
    f("x");
    t = "a" + o;
    System.out.println(o);
    System.out.println(null);
    i = b + 1;
    if (i == b) { g(); }
    if (n) { }
    a = o;
    i = a["x"];
    i = g();
    o.s = 1;
    b = "a" == 1;
    b = i instanceof UnfitPart;
    return o;
  }
  void k() { return g(); }
}
class UnfitPart extends Unfit { }
