class A {
  @Nullable A next;
  static void f(A[] all, @Nullable A a, boolean b) {
    all[0] = b ? a : all[1];
    for (A x : all) { x.next = null; all[1] = x.next; }
    if (a == null) all[2] = a; else all[2] = a;
    while (a != null) { all[3] = a; a = a.next; }
    all[4] = a;
  }
}
