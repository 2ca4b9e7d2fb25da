class A {
  void f(String[] a) {
    @Initialized String s = a[0];
    @UnknownInitialization String t = s;
    for (@Initialized String u : a) t = u;
    @Initialized String v = null;
  }
}
