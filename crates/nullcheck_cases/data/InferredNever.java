class A {
  private void lonely(String s) { if (s != null) { String t = null; t.length(); } lonely(s); }
}
