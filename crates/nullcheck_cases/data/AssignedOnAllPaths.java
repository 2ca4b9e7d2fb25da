class A {
  static int f(boolean b) {
    int x;
    if (b) x = 1; else x = 2;
    int y;
    while (true) {
      y = x;
      if (y > 1) break;
      x = x + 1;
    }
    int z;
    if (b && (z = y) > 0) return z;
    int u;
    if (!b || (u = x) < 0) return 0;
    return u;
  }
}
