class WhereNine {
  String f1;
  String f2;
  String f3;
  String f4;
  String f5;
  String f6;
  String f7;
  String f8;
  String f9;
  WhereNine() {
  }
}
