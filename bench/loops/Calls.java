class Adder {
  int step = 3;

  int add(int number) {
    return number + this.step;
  }

  static int twice(int number) {
    return number + number;
  }
}

class Calls {
  public static void main(String[] args) {
    Adder adder = new Adder();
    int i = 0;
    int sum = 0;
    while (i < 2000000) {
      sum = adder.add(sum) + Adder.twice(i);
      i = i + 1;
    }
    System.out.println(sum);
  }
}
