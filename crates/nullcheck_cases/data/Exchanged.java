class A implements B { } interface B extends A { }
