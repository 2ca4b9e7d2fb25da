class Q {
  String s = "a";

  void set() { s = null; }
}
