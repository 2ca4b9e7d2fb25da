class C {
  String f;
  String g;
  int h;
  C(boolean b) {
    if (b) { this.f = "x"; return; }
    this.f = "x";
    this.g = "x";
  }
}
class D {
  String f;
  @Nullable String g;
  D(boolean b) {
    if (b) { this.f = "x"; return; }
    this.f = "x";
    this.g = "x";
  }
}
