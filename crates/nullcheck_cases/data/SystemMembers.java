class A {
  void f(int i) {
    System.exit(0);
    System.out.print(1);
    System.out.println();
    System.out.println(1, 2);
    Object o = System.out;
    System.err.println(1);
    i = System.in.x;
    System.out.println(z);
    System.out = null;
    System.gc(z);
    System.out.toString();
    (System).out.println(1);
  }
}
