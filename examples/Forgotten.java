class Forgotten {
  public static void main(String[] args) {
    String title = "draft";
    String subtitle = null;
    if (subtitle == null) {
      title = subtitle; // meant the other way round
    }
    System.out.println(title.length());
  }
}
