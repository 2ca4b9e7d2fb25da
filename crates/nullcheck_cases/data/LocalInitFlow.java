class A {
  A(boolean b, A a) {
    A t = a;
    if (b) t = this;
    @Initialized A u = t;
    @Initialized A w = a;
    while (b) { w = t; t = a; }
    for (@UnderInitialization A e : new A[] { a }) b = false;
  }
}
