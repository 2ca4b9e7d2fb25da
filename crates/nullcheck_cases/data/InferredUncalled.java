class A {
  private void unused(String s) { s.length(); helper(s); helper(null); }
  private void helper(String s) { s.length(); }
  private A(String s) { s.length(); }
}
