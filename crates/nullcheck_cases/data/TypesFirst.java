class A { int x; int x; void f() { y = 1; } }
