interface I { String m(); } class A { Object m() { return ""; } } class B extends A implements I { }
