class K {
  private String s;
  K() { }
  K(String t) { this.s = t; }
  int n() {
    if (s != null) return s.length();
    return 0;
  }
}
