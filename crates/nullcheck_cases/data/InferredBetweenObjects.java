class Pair {
  private Pair other;
  private String name;
  Pair(String n) { name = n; }
  void link(Pair p) { other = p; p.other = this; }
  private String nameOf(Pair p) { return p == null ? "" : p.name; }
  String both() { return name + nameOf(other); }
  int length() { return nameOf(other).length(); }
  int wrong() { return other.name.length(); }
  static void same(Pair p) { if (p.other != null) { p.nameOf(p); p.other.link(p); } }
}
