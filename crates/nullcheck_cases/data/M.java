class M {
  public static void main(String[] args) {
    int a = -2147483648;
    System.out.println(a / -1);
    System.out.println("n" + null + args.length);
  }
}
