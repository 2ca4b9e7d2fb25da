class Windows {
  private String s;

  private void set(String t) { s = t; }

  void clear() { this.set(null); this.set("a"); }
}
