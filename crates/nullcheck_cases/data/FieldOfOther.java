class A {
  A next;
  @Nullable A last;
  A(A a) { this.next = a; a.next = a.last; }
  void link(A a) {
    a.next = last;
    a.last = a.next = last;
    next.next.next = find(a);
  }
  @Nullable A find(A a) { return a.last; }
}
