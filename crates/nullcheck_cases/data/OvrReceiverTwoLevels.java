class A { void f(@UnderInitialization A this) { } }
class B extends A { void f(@UnknownInitialization B this) { } }
class C extends B { void f(@UnderInitialization C this) { } }
