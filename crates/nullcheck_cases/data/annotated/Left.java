class Left {
  private String a;
  private String b = "b";
  private String c;
  Left() { a = null; }
  private int n(String s) { return 1; }
  void set() { c = "c"; }
}
