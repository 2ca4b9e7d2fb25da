class A { private int x; } class B extends A { } class C extends B { boolean x; }
