class A { int x; void x(int x) { } } class B { int x; void x(int x) { } }
