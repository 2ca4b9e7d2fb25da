class A { int f() { return true; } }
