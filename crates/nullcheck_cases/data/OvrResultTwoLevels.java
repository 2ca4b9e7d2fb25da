class A { String f() { return "a"; } String @Nullable [] g() { return null; } }
class B extends A { }
class C extends B { @Nullable String f() { return null; } String[] g() { return new String[] { }; } }
class D extends C { String f() { return "d"; } String @Nullable [] g() { return null; } }
