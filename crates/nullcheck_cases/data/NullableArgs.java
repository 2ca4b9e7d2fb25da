class NullableArgs {
  public static void main(String @Nullable [] args) {
    System.out.println("started");
  }
}
