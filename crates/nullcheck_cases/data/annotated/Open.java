class Open {
  int n() { return s.length(); }
  private String s = "s"; }