class LongTypes {
  int f(boolean b) {
    if (b) { return 1; }
  }
  void g() {
    int n;
    int m = "ab";
    m = n;
    @Nullable String[] a = new String[] { "x" };
  }
}
