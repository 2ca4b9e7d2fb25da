class TwoMains {
  public static void main(String[] args) {
    System.out.println("upper");
  }
}

class Lower extends TwoMains {
  public static void main(String[] args) {
    System.out.println("lower");
  }
}
