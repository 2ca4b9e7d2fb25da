class A {
  static void f(A a, String s, @UnderInitialization A b) {
    @UnderInitialization A c = a;
    @UnderInitialization String t = s;
    @UnderInitialization A d = b;
    d = a;
    @NonNull @UnderInitialization A e = null;
  }
}
