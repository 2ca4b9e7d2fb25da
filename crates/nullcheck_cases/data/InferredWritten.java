class A {
  private @Nullable String a;
  private @NonNull String b = "";
  private void put(@NonNull String s, @Nullable String t) { b = s; a = t; }
  void go(@Nullable String s) { put(s, s); b = a; if (a != null) put(a, null); }
  private @Nullable String get(boolean c) { return "x"; }
  int use() { return get(true).length() + b.length(); }
}
