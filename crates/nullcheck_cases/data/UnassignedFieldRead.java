class K {
  private String s;
  K() { }
  K(String t) { this.s = t; }
  int n() {
    return s.length();
    return 0;
  }
}
