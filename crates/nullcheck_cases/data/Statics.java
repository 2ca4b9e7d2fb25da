class Statics {
  static int next = 41;
  static int low = -2147483648;
  static int none;
  static boolean on = true, off = false;
  static boolean unset;

  static int take() { return next++; }

  public static void main(String[] args) {
    System.out.println(low + " " + none + " " + on + " " + off + " " + unset);
    Other.count += take();
    Other.count += Statics.take();
    System.out.println(Other.count + " " + next);
    unset = !unset != off;
    System.out.println(unset == on);
    System.out.println(-(Statics.low = -5) + --Other.count);
  }
}

class Other extends Statics {
  static int count = 1_000;
}
