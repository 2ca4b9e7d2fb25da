class Greeting {
  public static void main(String[] args) {
    String name = "world";
    String greeting = "hello";
    System.out.println(greeting);
    System.out.println(name);
    System.out.println(name.length());
  }
}
