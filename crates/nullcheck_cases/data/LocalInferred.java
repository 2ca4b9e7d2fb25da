class A {
  private String f;
  private A(String s) { @NonNull String t = s; f = s; }
  static A make() { return new A(null); }
  void use() { @NonNull String t = f; @NonNull String u = get(); }
  private String get() { return f; }
}
