class LongOwner { LongRules held; LongOwner(LongRules r) { this.held = r; } }
class LongAbove {
  void put(@Nullable String s) { }
  void look(@UnderInitialization LongAbove this) { }
  String get() { return ""; }
}
class LongRules extends LongAbove {
  String name;
  LongRules(LongOwner o) {
    this.name = "";
    o.held = this;
    register(this);
    start();
    @Initialized LongRules r = this;
    LongRules[] all = new LongRules[] { this };
  }
  LongRules(boolean b, int n) { if (b) { this.name = ""; } }
  static void register(LongRules r) { }
  void start() { }
  void rename(@Nullable String s) {
    s.length();
    this.name = null;
    called(null);
    @NonNull String t = null;
    String[] texts = new String[] { "x", null };
    String[] empty = new String[3];
  }
  void called(String s) { }
  String same(@Nullable String s) { return s; }
  LongRules own(@UnderInitialization LongRules r) { return r; }
  void put(String s) { }
  void look() { }
  @Nullable String get() { return null; }
}
