class Store {
  public static void main(String[] args) {
    Object[] o = new String[] { "a" };
    o[0] = new Object();
  }
}
