class A {
  static String[] none() { return new String[0]; }
  A(boolean b) { String[] a = b ? none() : new String[1]; }
}
