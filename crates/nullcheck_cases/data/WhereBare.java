class WhereBare {
  String held;
}
