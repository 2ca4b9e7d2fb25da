class A {
  boolean f(A a, String s, int[] b, int i) {
    a.toString();
    this.hashCode();
    wait();
    equals(a);
    A.notify();
    b.clone();
    b.equals(b);
    i.equals(i);
    y.toString();
    y.equals(a);
    s.getClass();
    a.wait(z);
    A.equals(a);
    notifyAll(z, i);
    return a.equals(s) == s.equals(a) && s.equals();
  }
}
class B extends A {
  void g() { super.toString(); super.equals(this); super.finalize(z); }
  static void h() { super.getClass(); }
}
