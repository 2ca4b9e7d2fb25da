class A {
  String s;
  A(int n) { while (n > 0) { s = "x"; n--; } }
  A(String[] all, int n) { for (String t : all) s = t; }
  A(boolean b, int n, int k) { do { if (b) break; s = "x"; } while (n > k); }
  A(int n, int k, int m, String t) { do { s = t; if (n > k) continue; n++; } while (n < m); }
}
