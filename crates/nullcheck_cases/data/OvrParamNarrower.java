interface I { void f(@Nullable String s); }
interface J extends I { void f(String s); }
class A implements I { public void f(String s) { } }
