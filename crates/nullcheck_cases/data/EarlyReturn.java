class E {
  String s;
  E(boolean b) {
    if (b) return;
    this.s = "x";
  }
}
