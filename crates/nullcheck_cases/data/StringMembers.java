class A {
  boolean f(String s, int i) {
    s.charAt(0);
    s.foo(z);
    s.length(1);
    i = s.length;
    s.isEmpty(s);
    s.equals(s, s);
    "a".trim();
    s.n = 1;
    i = String.valueOf(1);
    i = String.length();
    i = String.MAX;
    String.MAX = 1;
    (s + i).trim();
    return String.equals(s) || String.isEmpty() || String.equals();
  }
}
