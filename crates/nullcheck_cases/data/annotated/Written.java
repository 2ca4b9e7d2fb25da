class Written {
  private @Nullable String s;
  private @NonNull String t = "t";
  String u = "u";
  void set(@Nullable String v) { s = v; }
}
