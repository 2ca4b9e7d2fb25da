class A { }
class B extends A {
  B cast(@Nullable A a) { return (B) a; }
  B tested(@Nullable A a) { if (a instanceof B) return (B) a; return (B) a; }
  A moved(@Nullable A a) { A b = a; if (a != null) return b; return this; }
  A assign(@Nullable A a) { A b; return b = a; }
}
