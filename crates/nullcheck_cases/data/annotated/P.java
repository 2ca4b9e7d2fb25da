class P {
  private String x;
  P() { this.show(); this.x = "a"; }
  private void show() { this.x.length(); }
  void go() { this.show(); }
}
