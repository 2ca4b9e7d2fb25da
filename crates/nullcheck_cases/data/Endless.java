class Endless {
  public static void main(String[] args) {
    while (true) { }
  }
}
