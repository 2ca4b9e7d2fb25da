class Second { private static void f(String a, String b) { } void g() { f("a", null); } }
