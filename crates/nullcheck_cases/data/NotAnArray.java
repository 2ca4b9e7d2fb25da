class A {
  int n;
  void f(A a, int i, String s, int[] b) {
    i[0] = 1;
    i = a[0] + (s)[1] + b[0] + (b)[1];
    for (int x : a) ;
    for (int x : (i)) ;
    for (int x : b) ;
    z[0] = w;
    a.n[w]++;
    for (int x : z) ;
    i = a.none[0];
    for (int x : f(a, i, s, b)) ;
  }
}
