class WhereOver {
  void put(String a, @Nullable String b) {
  }
}
class WhereUnder extends WhereOver {
  void put(String a, String b) {
  }
}
