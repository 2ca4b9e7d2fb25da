class A { A() { this(1); } A(int x) { this(); } A(int x, int y) { this(x); } A(A z, A u, A v) { } }
