class A {
  void f(A a, String s, String t, Object o, int[] c, boolean b) {
    b = s == t;
    b = s != o;
    b = o == a;
    b = a == o;
    b = (o) == s;
    b = a == a;
    b = c == o;
    b = y == s;
    b = s + t == t;
    b = s == "a" && o != o;
    b = (b ? null : null) == s;
    if ((Object) a == a) ;
    while (b == (s == t)) ;
    b = a == z;
  }
}
