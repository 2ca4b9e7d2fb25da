class Part { Whole of; Part(@UnderInitialization Whole w) { of = w; } }
class Whole {
  final Part[] parts;
  Whole() { parts = new Part[] { new Part(this), new Part(this) }; }
  Whole(Part[] to) { parts = to; put(to); }
  private void put(Part[] to) { to[0] = new Part(this); }
}
