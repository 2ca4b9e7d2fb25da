class A {
  private String find(boolean b) { if (b) return null; return "x"; }
  private String look(boolean b) { return find(b); }
  @Nullable String get(boolean b) { return look(b); }
  String safe(boolean b) { String t = look(b); return t == null ? "" : t; }
  private String sure() { return "y"; }
  String all() { return sure(); }
}
