class LongOther { private int hidden; }
class LongBodies {
  final int fixed = 1;
  void f(LongOther o) {
    int a = missing;
    o.absent();
    a = o.hidden;
    this.fixed = 2;
    toString();
  }
}
