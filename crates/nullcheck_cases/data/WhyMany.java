class WhyMany {
  int size() { return a1(null); }
  private int a1(String s) { return a2(s); }
  private int a2(String s) { return a3(s); }
  private int a3(String s) { return a4(s); }
  private int a4(String s) { return a5(s); }
  private int a5(String s) { return a6(s); }
  private int a6(String s) { return a7(s); }
  private int a7(String s) { return a8(s); }
  private int a8(String s) { return a9(s); }
  private int a9(String s) { return s.length(); }
}
