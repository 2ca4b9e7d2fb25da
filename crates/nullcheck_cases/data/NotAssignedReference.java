class A {
  @Nullable A next;
  static void f(boolean b, A a) {
    A t;
    if (b) t = a;
    t.next = null;
    A u;
    if (a != null && b) u = a;
    u.next = t;
  }
  static void g(String[] all) {
    String last;
    for (String s : all) last = s;
    System.out.println(last);
  }
}
