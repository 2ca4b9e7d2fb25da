class Texts {
  static String shown(@Nullable String s) { return "<" + s + ">"; }

  public static void main(String[] args) {
    String s = "ab";
    s += 1;
    s += true;
    s += null;
    System.out.println(s + " " + s.length());
    System.out.println(1 + 2 + "a" + 1 + 2 + (1 + 2));
    System.out.println("" + -5 + false);
    System.out.println("".isEmpty() + " " + " ".isEmpty());
    System.out.println("abc".equals("ab" + "c") + " " + "abc".equals("abcd") + " " + "abc".equals("abd"));
    Object o = "abc";
    System.out.println("abc".equals(o) + " " + "abc".equals(args) + " " + "null".equals(null));
    System.out.println("é😀".length() + " " + "\b\t\n\f\r\"\'\\".length());
    System.out.println("a\\b\"c\'d\ne");
    String t = null;
    System.out.println(t);
    System.out.println(shown(t) + shown("") + "null".equals("" + t));
  }
}
