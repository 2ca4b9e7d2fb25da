class Box {
  final String[] words;
  Box(String[] words) { this.words = words; }
  Box() { this(new @Nullable String[1]); }
  static Box of(@Nullable String[] a) { return new Box(a); }
  @Nullable String[] words() { return words; }
}
class Sub extends Box {
  Sub(@Nullable String[] a) { super(a); }
}
