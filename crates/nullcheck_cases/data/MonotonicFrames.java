class B {
  B() { }
}
class A extends B {
  @MonotonicNonNull A next;
  @MonotonicNonNull A other = null;
  A(@NonNull A a) {
    super();
    next = a;
    new B();
    next.go();
    this.go();
    next.go();
  }
  void go(@UnknownInitialization A this) { }
  void two(A a, A b) {
    if (a.next != null) { b.next = a; a.next.go(); }
  }
}
