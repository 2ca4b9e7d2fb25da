class A {
  A f;
  A(@UnderInitialization A a) { this.f = a; }
  A(A a, boolean b) {
    this.f = a;
    A t = null;
    if (b) t = this;
    a.f = t;
    a.f = new A(this);
    a.f = a.f;
  }
}
