class A { private static void f(String s) { } void g() { f(null); } }
