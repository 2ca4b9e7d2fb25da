class Compound {
  int total = 10;

  void divide(int by) {
    System.out.println("by " + by);
    this.total /= by;
    System.out.println(total);
  }

  public static void main(String[] args) {
    Compound c = new Compound();
    c.divide(3);
    c.divide(args.length);
  }
}
