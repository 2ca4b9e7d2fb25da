class A {
  @Nullable String get(String s) { return s; }
}
class B extends A {
  String get(@Nullable String s) { return s; }
}
class C extends B {
  @Nullable String get(String s) { return super.get(null); }
  static int use(A a, B b) { return a.get("x").length() + b.get(null).length() + b.get("").length(); }
}
