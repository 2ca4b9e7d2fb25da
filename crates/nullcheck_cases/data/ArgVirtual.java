interface Sink { void put(@Nullable String s); }
class Log implements Sink {
  int n;
  public void put(@Nullable String s) { if (s != null) n += s.length(); }
  static void all(Sink to, @Nullable String[] from) { for (@Nullable String s : from) to.put(s); }
  static void some(Sink to, String[] from) { for (String s : from) { to.put(s); to.put(null); } }
}
