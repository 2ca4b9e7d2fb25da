class A {
  static void f(@Nullable String s, String t) {
    @NonNull String a = t;
    if (s != null) a = s;
    @Nullable String b = s;
    b = null;
    String c = null;
    c = t;
    c.length();
    for (@Nullable String d : new @Nullable String[2]) b = d;
    for (@NonNull String e : new String[] { t }) a = e;
    @NonNull String g;
    g = a + s;
  }
}
