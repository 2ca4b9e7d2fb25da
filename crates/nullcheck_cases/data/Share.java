class Share {
  static int parts = 4;
  int share = 100 / parts;

  Share() {
    System.out.println("made");
  }

  public static void main(String[] args) {
    while (true) {
      System.out.println(new Share().share);
      Share.parts -= 2;
    }
  }
}
