class Remainder {
  static int rest(int a, int b) {
    System.out.println(a + " by " + b);
    return a % b;
  }

  public static void main(String[] args) {
    System.out.println(rest(-7, 2));
    System.out.println(rest(7, args.length));
    System.out.println("behind");
  }
}
