class Lines {
	static int tab(@Nullable String s) {	return s.length(); }
  static int wide(@Nullable String größe) { String t = "é—漢"; return größe.length(); }
  static int feed(@Nullable String s) { return s.length(); }
  static int both(@Nullable String s) { int one = 1; int two = 2; int three = 3; int four = 4; int sum = s.length(); int five = 5; int six = 6; int seven = 7; int eight = 8; return sum + one + two; }
  static int late(@Nullable String s) { int one = 1; int two = 2; int three = 3; int four = 4; int five = 5; int six = 6; int seven = 7; int eight = 8; int nine = 9; return s.length(); }
  static int soon(@Nullable String s) { return s.length() + 1 + 2 + 3 + 4 + 5 + 6 + 7 + 8 + 9 + 10 + 11 + 12 + 13 + 14 + 15 + 16 + 17 + 18 + 19 + 20 + 21 + 22; }
  static int turned(@Nullable String s) { /* ‮⁩ */ return s.length(); }
  static @Nullable String two(@Nullable String a, @Nullable String b) { return a; }
  static int over(@Nullable String s) { return two(s,	s
    ).length(); }
}
