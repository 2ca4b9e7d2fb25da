class Reg { @Nullable Item last; Item only; Reg(Item i) { only = i; } }
class Item {
  @Nullable Item next;
  Item(Reg r, Item i) {
    r.last = this;
    i.next = this;
    Item self = this;
    r.only = self;
    r.last = i;
    this.next = i;
  }
}
