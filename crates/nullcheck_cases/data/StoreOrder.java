class StoreOrder {
  static int said(int n) {
    System.out.println("said " + n);
    return n;
  }

  public static void main(String[] args) {
    int[] a = new int[1];
    int n = args.length;
    if (n == 0) a[1] = said(7) / n;
    if (n == 1) a[n] = said(7);
    if (n == 2) a[n] += said(7);
    Object[] o = args;
    if (n == 3) o[n] = a;
    o[said(0)] = "b";
    System.out.println(args[0]);
    o[n - 1] = a;
  }
}
