class LongArray {
  public static void main(String[] args) {
    System.out.println("before");
    int[] a = new int[16777217];
    System.out.println(a.length);
  }
}
