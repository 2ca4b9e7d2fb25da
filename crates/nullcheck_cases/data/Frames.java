class Frames {
  static void f(int n) {
    if (n > 1) f(n - 1);
  }

  public static void main(String[] args) {
    f(4095 + args.length);
    System.out.println("back");
  }
}
