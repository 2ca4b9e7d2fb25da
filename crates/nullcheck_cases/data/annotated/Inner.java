interface Shape {
  String name();
}
abstract class Inner implements Shape {
  private Inner next;
  protected String label = "label";
  String plain = "plain";
  private int n;
  private void link(Inner other) { next = other; }
  void join(Inner other) { this.link(other); this.link(null); }
}
