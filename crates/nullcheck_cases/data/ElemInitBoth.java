class A {
  @Nullable A f;
  A(A[] all, boolean b) {
    all[0] = f;
    A t = null;
    if (b) t = this;
    all[1] = t;
    if (t != null) all[2] = t;
  }
}
