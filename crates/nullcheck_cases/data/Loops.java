class Loops {
  public static void main(String[] args) {
    String line = "";
    for (int i = 0; i < 10; i++) {
      if (i % 2 == 0) continue;
      if (i > 7) break;
      line += "," + i;
    }
    System.out.println(line);
    int n = 0;
    while (n < 3) {
      n++;
      if (n == 2) continue;
      System.out.println("while " + n);
    }
    do {
      n--;
      if (n == 1) continue;
      System.out.println("do " + n);
    } while (n > 0);
    for (;;) {
      if (n++ == 2) break;
    }
    System.out.println(n);
    for (int i = 0; i < 3; i++) {
      for (int k = 0;; k++) {
        if (k == i) break;
        if (k == 1) continue;
        System.out.println(i + " over " + k);
      }
    }
    int[] a = new int[] { 3, 1, 2 };
    for (int x : a) {
      a = new int[] { };
      n = 10 * n + x;
      x = 0;
    }
    System.out.println(n + " " + a.length);
    for (int i = 0, k = 10; i < k; i += 3, k--) System.out.println(i + " below " + k);
    for (@NonNull String word : args) {
      for (int i = 0; i < word.length(); i++) {
        if (i == 2) break;
        System.out.println(word);
      }
    }
  }
}
