class A {
  static @Nullable String first(@Nullable String[] all) {
    for (@Nullable String s : all) {
      if (s == null) continue;
      return s;
    }
    return null;
  }
  static boolean even(int n) {
    while (n > 0) {
      n -= 2;
      if (n == 1) return false;
    }
    return true;
  }
  void quiet() { ; }
}
