class A extends B { C f; D g(E x) { return null; } }
