class Arithmetic {
  public static void main(String[] args) {
    int i = 0;
    int sum = 0;
    while (i < 10000000) {
      sum = sum + i * 3;
      i = i + 1;
    }
    System.out.println(sum);
  }
}
