class Pair {
  int sum = 0;

  Pair(int a, int b) { sum = 10 * a + b; }

  Pair self(String what) {
    System.out.println(what);
    return this;
  }

  int plus(int a, int b) { return sum + a * b; }
}

class Order {
  static int said(String what, int n) {
    System.out.println(what);
    return n;
  }

  static boolean is(String what, boolean b) {
    System.out.println(what);
    return b;
  }

  static int[] array(String what, int[] a) {
    System.out.println(what);
    return a;
  }

  public static void main(String[] args) {
    int[] a = new int[] { said("first element", 4), said("second element", 5) };
    System.out.println(said("left", 20) - said("right", 3));
    array("array", a)[said("index", 1)] = said("value", 7);
    System.out.println(a[0] * a[1]);
    array("old array", a)[said("old index", 0)] += said("more", a[0] = 9);
    System.out.println(a[0]);
    Pair p = new Pair(said("one", 1), said("two", 2));
    System.out.println(p.self("receiver").plus(said("three", 3), said("four", 4)));
    p.self("object").sum = said("five", 5);
    System.out.println(p.sum);
    System.out.println(is("a", false) || is("b", true) && !is("c", false) || is("d", true));
    System.out.println(is("e", true) && is("f", false) && is("g", true));
    System.out.println(is("h", false) ? said("i", 1) : said("j", 2));
    System.out.println(said("k", 1) == said("l", 1) != is("m", true));
  }
}
