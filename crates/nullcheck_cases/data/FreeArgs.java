class FreeArgs {
  public static void main(String @UnknownInitialization [] args) {
    System.out.println("started");
  }
}
