class NullableWords {
  public static void main(@Nullable String[] args) {
    System.out.println("started");
  }
}
