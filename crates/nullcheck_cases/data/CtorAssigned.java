class A {
  String s;
  String t = "t";
  @Nullable String u;
  int n;
  A(boolean b) { if (b) s = "x"; else { s = "y"; return; } n = 1; }
  A(boolean b, int n) { this(b); }
  A(int a, int b, int c) { while (true) { if (a > b) { s = "z"; break; } a++; } }
  A(String p, int a, int b, int c) { if (a < b) { this.s = p; return; } s = p + c; }
}
