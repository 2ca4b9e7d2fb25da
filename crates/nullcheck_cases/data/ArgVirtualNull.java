interface Sink { void put(String s); }
class Log implements Sink {
  public void put(String s) { s.length(); }
  static void all(Sink to, @Nullable String[] from) {
    for (@Nullable String s : from) to.put(s);
    to.put(from[0]);
    Log l = new Log();
    l.put(null);
  }
}
