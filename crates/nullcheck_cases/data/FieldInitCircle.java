class List {
  Cell first;
  Cell last;
  List() { first = new Cell(this); last = new Cell(this, first); }
}
class Cell {
  List owner;
  @Nullable Cell before;
  Cell(@UnderInitialization List l) { owner = l; }
  Cell(@UnderInitialization List l, @UnknownInitialization Cell c) { owner = l; before = c; }
}
