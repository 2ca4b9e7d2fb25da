class Item {
  String s;
  Item(String t) { this.s = t; }
  int n() { return this.s.length(); }
  static Item of() { return new Item(null); }
}
