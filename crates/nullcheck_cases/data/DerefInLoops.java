class Node {
  @Nullable Node next;
  String text;
  Node(String text) { this.text = text; }
  static int sum(@Nullable Node x) {
    int n = 0;
    while (x != null) { n += x.text.length(); x = x.next; }
    return n;
  }
  static @Nullable Node find(@Nullable Node x, String t) {
    for (Node y = x; y != null; y = y.next) {
      if (y.text.isEmpty()) continue;
      if (y.text.equals(t)) return y;
    }
    return null;
  }
  static Node last(Node x) {
    while (true) {
      Node y = x.next;
      if (y == null) break;
      x = y;
    }
    return x;
  }
  static int depth(Node x) {
    int n = 0;
    Node y = x;
    do { n++; y = y.next; } while (y != null);
    return n;
  }
  static int until(@Nullable String s) { while (s == null) s = make(); return s.length(); }
  static @Nullable String make() { return "x"; }
}
