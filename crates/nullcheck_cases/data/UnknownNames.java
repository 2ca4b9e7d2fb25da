class A {
  A a;
  int f(int k) {
    y = k;
    int i = z + A + k;
    y++;
    A = null;
    System = null;
    if (c) ; else k = d;
    y += i;
    Object o = System;
    (A).a = null;
    System.out.println(i1 + k);
    if (q) return r;
    while (s) ;
    do ; while (t);
    for (u = 0; v; w++) ;
    return -x;
  }
}
