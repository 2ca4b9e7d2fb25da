class A { A() { } A(int x) { } void f() { } void f(int x) { } }
