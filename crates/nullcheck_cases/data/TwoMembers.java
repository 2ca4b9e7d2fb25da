class A { int x; int x; void f(int a, int a) { } }
