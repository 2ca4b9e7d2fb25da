class Strings {
  public static void main(String[] args) {
    int i = 0;
    int sum = 0;
    while (i < 1000000) {
      String text = "item " + i;
      if (text.equals("item 77")) {
        sum = sum + 1000;
      }
      sum = sum + text.length();
      i = i + 1;
    }
    System.out.println(sum);
  }
}
