class V {
  void t() {
    String[] a = new String[3];
    @Nullable String[] b = new @Nullable String[3];
    b[0].length();
  }
}
