class A { @Nullable String get() { return null; } }
class B extends A { String get() { return "b"; } String sure() { return get(); } }
