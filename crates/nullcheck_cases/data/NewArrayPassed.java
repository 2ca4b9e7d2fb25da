class A {
  static int count(@Nullable String[] a) { int n = 0; for (@Nullable String s : a) if (s != null) n++; return n; }
  static int none() { return count(new @Nullable String[5]) + count(new @Nullable String[] { "x" }); }
  static boolean[] flags(int n) { return new boolean[n]; }
}
