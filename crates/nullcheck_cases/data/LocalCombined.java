class A {
  @Nullable A next;
  A get() { return this; }
  @Nullable A find() { return next; }
  void f() {
    @NonNull A a = this, b = next, c = get().get();
    a = find();
    if (next != null) a = next;
    if (next != null) { get(); a = next; }
    a = this;
    while ((a = a.next) != null) b = a;
  }
}
