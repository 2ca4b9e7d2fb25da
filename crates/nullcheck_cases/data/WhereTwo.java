class WhereTwo {
  String first;
  String second;
  String third;
  WhereTwo(boolean b) {
    this.second = "s";
    if (b) {
      this.third = "t";
      return;
    }
    this.first = "f";
  }
}
