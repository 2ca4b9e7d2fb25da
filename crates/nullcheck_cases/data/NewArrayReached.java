class A {
  static void f(boolean b) {
    String @Nullable [] a = new String[2];
    for (String s : new String[2]) s.length();
    if (false) { String[] c = new String[1]; }
    while (true) { if (b) return; String[] d = new String[3]; }
  }
}
