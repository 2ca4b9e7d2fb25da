class Named {
  private String s = "s";
}
class NonNull { }
