class A {
  int n = 1;
  @Nullable A next = null;
  static int c;

  A(int k) { this.n = k; }

  A() { this(3); }

  static int values(int i) {
    String s = "t";
    boolean q = true;
    i = i + (i = 2);
    i += 3;
    s += i++;
    c = -i;
    return --c;
  }

  boolean tests(A a, Object o, boolean q) {
    if (q && !(a.next == null) || a == this) n = 4;
    boolean b = o instanceof A || !q;
    a = b ? (A) o : null;
    return b;
  }

  static int arrays(int[] b, int i) {
    @Nullable A[] a = new @Nullable A[i];
    b = new int[] { i, i++ };
    b[i = 1] = b[0] += b.length;
    a[i--] = a[i];
    return b[i]++;
  }

  void loops(int i) {
    while (i < 9) {
      if (i == 5) break;
      i++;
      if (this.next != null) continue;
      next = this;
    }
    do i -= 2; while (i > 0);
  }

  static int turns(@Nullable String[] b) {
    int k = 0;
    for (int i = 0; i < 3; i++, k++) if (i == 1) continue;
    for (@Nullable String s : b) { if (s == null) continue; k += s.length(); }
    for (;;) break;
    return k;
  }
}

class B extends A {
  String s = "t";
  int m = -n;

  B(A a) { super(a.n); m = 5; }

  int calls(B b, String t) {
    A a = new B(b);
    loops(A.values(t.length()));
    if (a.tests(b, t, t.isEmpty())) System.out.println("n" + super.tests(a, null, true));
    return b.calls(b = this, s);
  }
}

class C extends A { }
