class A { String f(@UnderInitialization A this, @Nullable String s) { return ""; } }
class B extends A { @Nullable String f(String s) { return s; } }
