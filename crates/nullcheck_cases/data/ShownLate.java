class P {
  private String x;
  P() { this.x = "a"; }
  private void show() { this.x.length(); }
  void go() { this.show(); }
}
