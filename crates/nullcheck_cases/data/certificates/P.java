class P {
  private P same(P p) { return p; }

  P twice(P p) { return same(p); }
}
