class A {
  A self() { return this; }
  void m() { self().self().m(); }
  static void go(A a) { a.m(); new A().m(); }
}
class B extends A { B() { A a = new A(); a.m(); a.self().m(); } }
