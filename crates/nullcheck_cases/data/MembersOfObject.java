class clone { clone() { } clone(int finalize) { } }
interface finalize { int toString(); }
class A {
  int equals, getClass, n = 1;
  void hashCode() { n = equals; }
  void f(int notify) { int notifyAll = 1, x = notify; for (int wait = 0; n < x; ) ; }
  void g(int[] b) { for (int toString : b) ; }
  clone h(clone c) { clone d = new clone(); return d; }
  void i(int wait) { int wait; }
}
