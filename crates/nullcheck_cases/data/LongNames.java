class LongNames extends Missing {
  int count; String count;
  void put(int n) { }
  void put(String s) { }
}
class LongRound extends LongRound { }
