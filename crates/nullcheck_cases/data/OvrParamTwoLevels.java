class A { void f(@Nullable String s) { } }
class B extends A { }
class C extends B { void f(String s) { } }
class D extends C { void f(@Nullable String s) { } }
