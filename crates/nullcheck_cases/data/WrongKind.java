interface I { } class A extends I { } class B implements A { }
