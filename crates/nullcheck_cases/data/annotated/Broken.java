class Broken {
  private String s
}
