abstract class A { A() { init(); } abstract void init(@UnderInitialization A this); }
class B extends A { @Nullable String s; void init(@UnderInitialization B this) { s = "x"; } }
class C extends B { void init(@UnderInitialization C this) { super.init(); s = "y"; } }
