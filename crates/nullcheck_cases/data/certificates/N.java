class A { static void f() { String s = null; s.length(); } }
