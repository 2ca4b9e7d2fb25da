class A {
  int f(String s, Object o) {
    System.out.println(s);
    System.out.println(s.length() + 1);
    if (s.isEmpty() || s.equals(o) || "a".equals(s)) System.out.println(s == null);
    return "abc".length();
  }
}
