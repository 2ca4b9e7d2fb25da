class UsesDivider {
  public static void main(String[] args) {
    System.out.println(Divider.divided(12, args.length));
    System.out.println(args[0].length() % (args.length - 3));
  }
}
