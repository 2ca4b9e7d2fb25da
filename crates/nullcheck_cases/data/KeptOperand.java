class KeptOperand {
  public static void main(String[] args) {
    int x = 1;
    System.out.println(x + (x = 3) * x);
  }
}
