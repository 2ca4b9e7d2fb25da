class A {
  private String[] words = new String[] { "a" };
  private String last;
  void add(String s) { words[0] = s; words[1] = last; fill(null); }
  private void fill(String s) { words[0] = s; words = new String[] { s != null ? s : "" }; }
}
