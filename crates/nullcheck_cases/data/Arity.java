class A { void f(int a) { } int f(int b) { return b; } }
