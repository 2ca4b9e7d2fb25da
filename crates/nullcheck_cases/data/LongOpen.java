class A { }
/* not closed
