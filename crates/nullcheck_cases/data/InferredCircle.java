class Ring {
  private Ring next;
  private Ring before;
  Ring() { next = this; before = this; }
  private Ring(Ring b) { before = b; next = b.next; b.next = this; next.before = this; }
  Ring add() { return new Ring(this); }
  Ring after() { return next; }
}
