class Deep {
  public static void main(String[] args) {
    main(args);
  }
}
