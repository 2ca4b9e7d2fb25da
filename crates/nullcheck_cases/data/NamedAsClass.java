class A { void A() { } }
