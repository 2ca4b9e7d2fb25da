class Counted {
  int n = 2;

  static int three() { return 3; }

  public static void main(String[] args) {
    Counted c = new Below();
    if (args.length == 0) c.n = three();
    System.out.println(c.n);
  }
}

class Below extends Counted { }
