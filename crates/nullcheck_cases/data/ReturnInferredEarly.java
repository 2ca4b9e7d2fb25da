class A {
  A(int n) { A t = own(); }
  private A own() { return this; }
  A late() { return own(); }
  private @Initialized A sure() { return own(); }
}
