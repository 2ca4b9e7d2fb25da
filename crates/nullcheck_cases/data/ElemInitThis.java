class A {
  A(A[] all) {
    all[0] = this;
    A[] b = new A[] { this, all[0] };
    @Nullable Object[] o = new @Nullable Object[] { this, null };
  }
  static void f(A[] all, @UnderInitialization A a, @UnknownInitialization A b) {
    all[0] = a;
    all[1] = b;
  }
}
