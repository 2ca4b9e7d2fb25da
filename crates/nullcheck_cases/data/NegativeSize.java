class NegativeSize {
  public static void main(String[] args) {
    int[] a = new int[-1];
  }
}
