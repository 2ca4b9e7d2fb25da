class Pair {
  Half left;
  Half right;
  Pair() { left = new Half(this); right = half(); }
  @UnderInitialization Half half(@UnderInitialization Pair this) { return new Half(this); }
  static Pair make() { return new Pair(); }
}
class Half { Pair of; Half(@UnderInitialization Pair p) { of = p; } }
