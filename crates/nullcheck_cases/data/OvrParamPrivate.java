class A { void m(@Nullable A x) { } }
class B extends A { private void m(A x) { } void g() { m(this); } }
