class Stack {
  final @Nullable Object[] items;
  int size;
  Stack(int n) { items = new @Nullable Object[n]; }
  void push(Object o) { items[size] = o; size++; }
  @Nullable Object pop() { size--; Object o = items[size]; items[size] = null; return o; }
}
