/* A null is tested before it is used: accepted. */
class Fallback {
  public static void main(String[] args) {
    String title = null;
    if (title == null) {
      title = "untitled";
    }
    System.out.println(title.length()); // both paths give a text
  }
}
