class Hanoi {
  static int moves;

  static void move(int disks, String from, String to, String spare) {
    if (disks == 0) return;
    move(disks - 1, from, spare, to);
    moves++;
    System.out.println(disks + ": " + from + " to " + to);
    move(disks - 1, spare, to, from);
  }

  static boolean even(int n) { return n == 0 || odd(n - 1); }
  static boolean odd(int n) { return n != 0 && even(n - 1); }

  public static void main(String[] args) {
    move(args.length, "a", "b", "c");
    System.out.println(moves + " " + (even(moves) ? "even" : "odd"));
  }
}
