class Bounds {
  public static void main(String[] args) {
    int[] a = new int[] { 5, 6 };
    int n = args.length;
    if (n == 0) n = a[1] - a[2];
    if (n == 1) n = a[n - 2];
    if (n == 2) a[n] = 7;
    String last = args[3];
    System.out.println(last + a[0] + a[1]);
    a[n]++;
  }
}
