class Door {
  @Nullable Door next;
  void open() { }
  static void pass(Door d) { if (d.next != null) { new Closer(d); d.next.open(); } }
  static void kept(Door d) { Door n = d.next; if (n != null) { new Closer(d); n.open(); } }
}
class Closer { Closer(Door d) { d.next = null; } }
