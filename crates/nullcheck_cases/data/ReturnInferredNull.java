class A {
  private String f;
  A(boolean b) { if (b) f = "x"; }
  private String find(boolean b) { if (b) return null; return "x"; }
  private String look(boolean b) { return find(b); }
  String get(boolean b) { return look(b); }
  private @NonNull String sure(boolean b) { return find(b); }
  String field() { return f; }
}
