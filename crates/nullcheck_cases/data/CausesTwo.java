class CausesTwo {
  private String held = "";
  private String name = "";
  void clear() {
    this.name = null;
  }
  void forget() {
    this.held = null;
  }
  int first() {
    return this.name.length();
  }
  int second() {
    return this.held.length();
  }
  int third() {
    return this.held.length();
  }
}
