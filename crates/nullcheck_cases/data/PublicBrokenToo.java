interface Source {
  String next();
  void close(@UnknownInitialization Source this);
}
class Lines implements Source {
  public String last;
  public Lines next;
  public Lines(Lines next) { this.next = next; }
  public @Nullable String next() { return null; }
  public void close() { }
  public String first(String[] all) {
    String found = null;
    for (String one : all) { found = one; }
    return found;
  }
}
class Sink {
  public Lines lines;
  public Sink() {
    lines = new Lines(held(this));
    open();
  }
  public void open() { }
  public static Lines held(Sink sink) { return sink.lines; }
  public Sink again(@UnknownInitialization Sink other) { return other; }
}
