class Reg {
  @Nullable Item last;
}
class Item {
  Item(Reg r) { r.last = this; }
}
