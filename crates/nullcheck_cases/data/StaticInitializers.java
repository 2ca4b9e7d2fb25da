class A {
  static String s;
  static int[] a;
  static A b = new A();
  static int c = 1, d = 1 + 1;
  static int e = (1);
  static int f = +1;
  static int g = true;
  static boolean h = 1;
  private static final boolean i = !true;
  static int j = y + this.k() + "".charAt(0);
  static int l = - -1;
  @Nullable static A m = null;
  public static @Initialized A o;
  static int p;
}
