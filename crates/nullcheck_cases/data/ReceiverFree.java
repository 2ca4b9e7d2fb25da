class A {
  @Nullable String s;
  A() { init(); this.both(); new A(this).init(); }
  A(@UnderInitialization A a) { a.init(); a.both(); }
  void init(@UnderInitialization A this) { s = "x"; }
  void both(@UnknownInitialization A this) { s = null; }
  void late() { both(); new A().both(); this.both(); }
}
