class Node {
  @Nullable Node next;
  static int f(@Nullable Node x, int n) {
    do {
      if (x == null) continue;
      x = x.next;
      n--;
    } while (n > 0 && x != null);
    return n;
  }
  static void g(@Nullable String s, int n) {
    for (int i = 0; i < n; i++) {
      if (s == null) { s = "x"; continue; }
      s.length();
      if (i > 3) { s = null; break; }
    }
    if (s != null) s.length();
    s.length();
  }
  static void h(@Nullable String s, boolean b) {
    while (true) {
      if (s == null) break;
      if (b) continue;
      s.length();
      s = null;
    }
    s.length();
  }
  static int k(String[] all) {
    String best = null;
    for (String s : all) {
      if (best == null) { best = s; continue; }
      if (s.length() > best.length()) best = s;
    }
    return best == null ? 0 : best.length();
  }
}
