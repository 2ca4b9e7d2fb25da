class A { String s; A() { while (true) { } } }
