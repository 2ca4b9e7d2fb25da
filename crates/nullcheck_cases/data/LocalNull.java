class A {
  static void f(@Nullable String s, @Nullable String[] all) {
    @NonNull String a = s;
    a = null;
    @NonNull String b = s == null ? s : null;
    for (@NonNull String c : all) a = c;
    @NonNull String d = a = s;
    String @NonNull [] e = null;
  }
}
