class A {
  A(String s) {
    String[] a = new String[] { s };
    a[0] = s + a[0];
    @Nullable Object[] o = new @Nullable Object[2];
    o[0] = a;
    o[1] = new Object();
  }
  static void f(@UnknownInitialization A a, A[] all) { if (a == null) return; A b = all[0]; all[1] = b; }
}
