class Twice {
  public static void main(String[] args) {
    String s = null;
    { String t = s; t.length(); }
    s.length();
    s = "now";
    s.length();
  }
}
