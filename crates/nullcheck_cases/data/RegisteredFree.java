class Reg {
  @Nullable Item last;
}
class Item {
  Item(@UnderInitialization Reg r) { r.last = this; }
}
