interface I { void f(String s); }
class D { public void f(@Nullable String s) { } }
class E extends D implements I { }
