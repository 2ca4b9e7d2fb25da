class A {
  static int a;
  static boolean b;
  static int c = 1, d = -2147483648, e;
  static boolean f = true, g = false;
  private static final int h = -0;
  public static boolean i;
  String j = "";
  A k = this, l;
}
