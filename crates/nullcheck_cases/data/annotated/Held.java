class Held {
  private int n() { return 1; }
  int m() { return this.n(); }
}
class NonNull { }
