class P {
  private P same(P p) { return null; }

  P twice(P p) { return same(p); }
}
