abstract class Shape {
  public String name;
  public Shape() { describe(); }
  public abstract void describe();
  public Shape copy(@UnderInitialization Shape this, boolean same) {
    if (same) { return this; }
    return new Round();
  }
  public String title(boolean named) { return named ? "" : null; }
  public void grow(@UnderInitialization Shape this) { }
}
class Round extends Shape {
  public Round() { add(this, 1); }
  public void describe() { }
  public static void add(Shape shape, int n) { }
  public void grow() { }
  public @Nullable String title(boolean named) { return null; }
}
