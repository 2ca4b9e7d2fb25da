interface I { void f(String s); }
interface J extends I { void f(@Nullable String s); }
class A implements J { public void f(@Nullable String s) { } }
