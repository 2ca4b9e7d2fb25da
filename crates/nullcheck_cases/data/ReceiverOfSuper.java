class A { void i() { } void u(@UnknownInitialization A this) { } }
class B extends A { B() { super.i(); super.u(); } }
