class Part { }
class Whole {
  Part part;
  Whole(Part p) { part = p; }
  Part get(@UnknownInitialization Whole this) { return part; }
  Part sure(@UnknownInitialization Whole this) { if (part != null) return part; return new Part(); }
  Part plain() { return part; }
}
