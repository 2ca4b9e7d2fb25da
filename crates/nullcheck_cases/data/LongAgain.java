class LongAgain {
  int one(@Nullable String s) {
    return s.length();
  }
  int two(@Nullable String s) {
	  return s.length();
  }
  int both(@Nullable String s, @Nullable String t) { return s.length() + t.length(); }
}
