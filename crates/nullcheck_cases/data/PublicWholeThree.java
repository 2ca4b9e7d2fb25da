abstract class Shape {
  public String name = "shape";
  public Shape() { describe(); }
  public abstract void describe(@UnderInitialization Shape this);
  public @UnderInitialization Shape self(@UnderInitialization Shape this) { return this; }
  public @Nullable String title(boolean named) { return named ? "" : null; }
  public void grow() { }
}
class Round extends Shape {
  public Round() { add(this, 1); }
  public void describe(@UnknownInitialization Round this) { }
  public static void add(@UnknownInitialization Shape shape, int n) { }
  public void grow(@UnknownInitialization Round this) { }
  public String title(boolean named) { return ""; }
}
