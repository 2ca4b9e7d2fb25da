class A {
  @Nullable A f;
  static void g(@Nullable A a) { a.f.f = null; }
}
