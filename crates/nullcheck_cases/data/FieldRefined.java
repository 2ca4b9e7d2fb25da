class A {
  String s = "";
  @Nullable String t;
  void keep() { if (t != null) s = t; }
  void join(@Nullable Object o) { s = s + t + null; if (o instanceof String) s = (String) o; }
  void loop(@Nullable String[] all) { for (@Nullable String e : all) { if (e == null) continue; s = e; } }
}
