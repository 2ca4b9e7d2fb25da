class OldValues {
  int n;

  OldValues(int n) { this.n = n; }

  int minus(int a, int b) { return n * 100 + a * 10 + b; }

  public static void main(String[] args) {
    int i = 2;
    System.out.println((i = 3) * i);
    System.out.println(i * (i = 4));
    System.out.println((i = 5) * (i = 6));
    int k = 9;
    k += (k = 3);
    System.out.println(k);
    k = k++ + k++;
    System.out.println(k);
    k = k++ - --k;
    System.out.println(k);
    int[] a = new int[] { 11, 12, 13, 14 };
    int[] b = new int[] { 0, 1, 2, 3 };
    System.out.println(a[(a = b)[3]] + " " + a[3]);
    i = 0;
    a[i] = i = 2;
    System.out.println(a[0] + " " + a[2] + " " + i);
    a[i++] += i++ * 10;
    System.out.println(a[2] + " " + i);
    b = new int[] { i, i = 7, i, i++ };
    System.out.println(b[0] + " " + b[1] + " " + b[2] + " " + b[3] + " " + i);
    OldValues v = new OldValues(1);
    System.out.println(v.minus(k = 8, (v = new OldValues(2)).n));
    System.out.println(v.minus(k, k = 5));
    v.n = (v = new OldValues(6)).n++;
    System.out.println(v.n);
    String s = "a";
    s += s + (s = "b") + s;
    System.out.println(s);
    boolean t = true;
    System.out.println(t == (t = false) ? "same" : "other");
    System.out.println(i < (i = 9) ? i-- - i : i);
  }
}
