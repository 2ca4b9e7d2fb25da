class A {
  String f;
  @Nullable String g;
  A(String s, @Nullable String t) { this.f = s; this.g = t; }
  A(String s) { this(s, null); }
  A() { f = g = "x"; }
}
class B extends A {
  String h;
  B(String s) { super(s); h = s; f = s; }
}
