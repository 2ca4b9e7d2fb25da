class LineEnds {
  static int zero = 0;  public static void main(String[] args) {
    System.out.println("é\t😀"); /* é😀 */ int n = 1 / zero;
  }
}
