interface Named {
  void name(@Nullable String s);
}
class Plain implements Named {
  void name(@NonNull String s) { }
}
class Open implements Named {
  public void name(String s) { }
}
