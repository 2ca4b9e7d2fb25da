class A {
  boolean f(A a, A b, int[] c, String s, Object o, int i) {
    return a == b || c != c || s == null || null != o || (null) == s || null == null || i == i || s == (null) || a == c || s == i || (s == null) == (o != null);
  }
  boolean g(B b) { return this != b || new A() == (A) b; }
}
class B extends A { }
