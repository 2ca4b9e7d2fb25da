class Node {
  @Nullable Node next;
  Node() { }
  Node(Node n) { next = n; }
  static Node two() { Node a = new Node(); Node b = new Node(a); a.next = b; return b; }
  void close() { next = this; }
}
