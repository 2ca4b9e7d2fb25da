class A { int x; int x; } class B extends A { int x; } class C extends String { }
