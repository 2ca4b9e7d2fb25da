class Wide {
  public static void main(String[] args) {
    String s = "0123456789abcdef";
    for (int i = 0; i < 6; i++) s = s + s;
    System.out.println(s);
  }
}
