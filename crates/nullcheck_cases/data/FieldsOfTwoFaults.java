interface I {
  @Initialized I x = null;
  @Nullable int y = 1;
  @Nullable @NonNull I z = null, wait = null;
  final @Foo I v = null;
}
class A {
  @Foo static String s;
  @UnderInitialization static String t;
  static @Foo String u;
  @Nullable static A w;
  @Override static int m = 1 + 1, n = 2 + 2;
  @Nullable @Nullable static int o;
  static int @Initialized [] p;
}
