class Result { private static String f() { return null; } void g() { f(); } }
