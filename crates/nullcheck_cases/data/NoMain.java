class NoMain {
  public static void main() {
    System.out.println("no words");
  }
}
