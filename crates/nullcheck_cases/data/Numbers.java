class Numbers {
  static void divided(int a, int b) {
    System.out.println(a + " by " + b + " is " + a / b + ", " + a % b);
  }

  public static void main(String[] args) {
    int max = 2147483647;
    int min = -2147483648;
    divided(7, 2);
    divided(-7, 2);
    divided(7, -2);
    divided(-7, -2);
    divided(min, -1);
    divided(min, 10);
    System.out.println(max + 1);
    System.out.println(min - 1);
    System.out.println(max * max);
    System.out.println(65536 * 65536);
    System.out.println(46341 * 46341);
    System.out.println(-min);
    System.out.println(- -5 + +3);
    System.out.println(1 + 2 * 3 - 4 / 2 % 3);
    System.out.println(7 - 3 - 2);
    System.out.println(100 / 10 / 5 * 3);
    int i = max;
    System.out.println(++i == min);
    i--;
    i -= min;
    System.out.println(i);
    i *= 1_000_000;
    i /= 7;
    System.out.println(i);
    i %= 1000;
    System.out.println(i);
    System.out.println((i < 0) + " " + (i <= -857) + " " + (i > -857) + " " + (i >= 0) + " " + (i != 857));
    System.out.println(min < max == true);
  }
}
