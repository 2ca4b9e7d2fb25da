class A {
  static int f(boolean b, int[] a) {
    int x;
    if (b) x = 1;
    int y = x;
    int z;
    for (int e : a) z = e;
    while (b) { z = 1; break; }
    y += z;
    int u;
    if (b || (u = y) > 0) y = u;
    int v;
    v++;
    v += 1;
    int w;
    w += w;
    return y;
  }
}
