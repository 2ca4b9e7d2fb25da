@MonotonicNonNull class A {
  @MonotonicNonNull A() { }
  @MonotonicNonNull void f(@MonotonicNonNull A this, final @MonotonicNonNull A x) {
    for (@MonotonicNonNull String s : new @MonotonicNonNull String[] { }) ;
    String @MonotonicNonNull [] l = new String[] { };
    for (@MonotonicNonNull int i = 0; i < 1; i++) ;
  }
  @MonotonicNonNull @Override A g() { return this; }
}
@MonotonicNonNull interface I {
  @MonotonicNonNull A a = null;
  A @MonotonicNonNull [] b = null;
  @MonotonicNonNull A h();
}
