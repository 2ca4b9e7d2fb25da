class OnlyNull {
  private String a, b = "b";
  OnlyNull() { a = null; }
}
