interface Source {
  @Nullable String next();
  void close();
}
class Lines implements Source {
  public @Nullable String last;
  public Lines next;
  public Lines(Lines next) { this.next = next; }
  public String next() { return ""; }
  public void close(@UnknownInitialization Lines this) { }
  public @Nullable String first(String[] all) {
    String found = null;
    for (String one : all) { found = one; }
    return found;
  }
}
class Sink {
  public int opened;
  public Sink() {
    open();
    held(this);
  }
  public void open(@UnknownInitialization Sink this) { }
  public static void held(@UnknownInitialization Sink sink) { }
  public @UnknownInitialization Sink again(@UnknownInitialization Sink other) { return other; }
}
