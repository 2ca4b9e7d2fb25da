class Tab {
  private String s = "s";
}
