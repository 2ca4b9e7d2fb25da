class A { A(int x) { } A(String s, int x) { } }
class B extends A {
  B() { }
  B(int x) { super(x); }
  B(int x, int y) { super(); }
  B(int x, int y, int z) { this(x, y, z, x); }
  B(String s, A a, A b, A c, A d) { super(s, 1); }
}
class C extends A { }
class D {
  D(int x) { super(x); }
  D() { super(); }
  D(int x, int y) { this(x); }
}
class E extends D { }
