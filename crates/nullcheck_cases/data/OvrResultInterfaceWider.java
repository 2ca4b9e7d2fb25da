interface I { String f(); }
interface J extends I { @Nullable String f(); }
class D { public @Nullable String f() { return null; } }
class E extends D implements I { }
