interface Named {
  void name(@Nullable String s);
}
class Plain {
  void name(String s) { s.length(); }
}
class Both extends Plain implements Named { }
