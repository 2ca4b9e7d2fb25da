class A {
  boolean f(String s, Object o) {
    return s == o && s != o || (s && o);
  }
}
