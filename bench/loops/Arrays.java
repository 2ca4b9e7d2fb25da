class Arrays {
  public static void main(String[] args) {
    int[] numbers = new int[1000];
    int round = 0;
    int sum = 0;
    while (round < 5000) {
      int i = 0;
      while (i < numbers.length) {
        numbers[i] = numbers[i] + i;
        sum = sum + numbers[i];
        i = i + 1;
      }
      round = round + 1;
    }
    System.out.println(sum);
  }
}
