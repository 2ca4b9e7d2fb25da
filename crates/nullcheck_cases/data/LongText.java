class LongText {
  public static void main(String[] args) {
    String s = "é";
    for (int i = 0; i < 24; i++) s += s;
    System.out.println(s.length());
    s = s + "e";
    System.out.println(s.length());
  }
}
