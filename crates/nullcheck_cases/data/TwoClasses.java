class A { } class A { }
