class A { A(String s) { } void f(@Nullable String t, String u) { } }
class B extends A {
  B(@Nullable String s) { super(s); }
  void f(@Nullable String t, String u) {
    super.f(u, t);
    this.f(null, t);
    if (t != null) f(t, t);
  }
}
