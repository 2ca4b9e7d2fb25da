class Counter {
  static int made = 0;
  static boolean loud;
  static final int LIMIT = -3;
  int number;
  @Nullable Counter last;
  Counter() {
    number = made;
    made++;
    if (loud && made > Counter.LIMIT) System.out.println(made);
  }
  static @Nullable String name(Counter c) { return c.number > LIMIT ? "n" + c.number : null; }
  static int length(Counter c) { String s = name(c); return s == null ? 0 : s.length(); }
}
