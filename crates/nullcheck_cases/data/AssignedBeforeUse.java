class A {
  String s;
  A(boolean b) {
    String t;
    do {
      t = "x";
      b = !b;
    } while (b);
    for (int i; b; i = 1) { i = 2; t = t + i; }
    s = t;
    return;
  }
}
