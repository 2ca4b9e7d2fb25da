interface I { void f(@Nullable String s); }
class D { public void f(String s) { } }
class E extends D implements I { }
