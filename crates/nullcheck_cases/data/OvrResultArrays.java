interface I { String @Nullable [] f(); @Nullable String[] g(); }
class A implements I {
  public String[] f() { return new String[] { }; }
  public @Nullable String[] g() { return new @Nullable String[1]; }
}
