class A { void f(@UnderInitialization String s) { f(""); f(s); } }
