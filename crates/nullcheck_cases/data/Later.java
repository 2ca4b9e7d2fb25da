class A extends B { C f; A g(I x) { return null; } } class B { } class C implements I { } interface I { }
