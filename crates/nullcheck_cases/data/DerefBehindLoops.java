class Node {
  @Nullable Node next;
  static void walk(Node x) {
    Node y = x;
    for (int i = 0; i < 3; i++) y = y.next;
  }
  static void skip(@Nullable Node x) {
    while (x != null) {
      x = x.next;
      if (x == null) continue;
      x = x.next;
      if (x == null) break;
    }
    x.next = null;
  }
  static void until(@Nullable Node x) {
    do { x = x.next; } while (x != null);
  }
  static Node end(Node x) {
    while (x.next != null) x = x.next;
    x.next.next = null;
    return x;
  }
}
