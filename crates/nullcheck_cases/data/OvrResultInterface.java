interface I { @Nullable String f(); }
class A implements I { public String f() { return "a"; } }
class B extends A { public String f() { return super.f(); } }
