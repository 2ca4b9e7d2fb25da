class Node {
  @Nullable Node next;
  static int size(Node x) {
    int n = 1;
    while ((x = x.next) != null) n++;
    return n;
  }
}
