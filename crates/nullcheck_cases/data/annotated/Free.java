class Free {
  private Other other;
  Free() { this.other = new Other(); this.other.first(this); }
}
class Other {
  void first(@UnderInitialization Free free) { this.keep(free); }
  private void keep(Free free) { }
}
