class Million {
  public static void main(String[] args) {
    for (int i = 0; i < 124998; i++) { }
    System.out.println("turned");
    boolean none = args.length == 0;
    if (args.length == 1) { if (true) { } }
  }
}
