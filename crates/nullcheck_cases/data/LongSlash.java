class A { String s = "a\q"; }
