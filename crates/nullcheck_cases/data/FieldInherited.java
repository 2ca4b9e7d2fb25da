class A { String s = "a"; }
class B extends A {
  B() { s = null; }
  void f(B b, @Nullable String[] all) { b.s = all[0]; for (String t : all) s = t; }
}
