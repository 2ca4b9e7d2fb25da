class Node {
  @Nullable Node next;
  static Node last(Node x) {
    @NonNull Node y = x;
    for (@Nullable Node z = y.next; z != null; z = y.next) y = z;
    return y;
  }
}
