class NewObject {
  public static void main(String[] args) {
    new Object();
  }
}
