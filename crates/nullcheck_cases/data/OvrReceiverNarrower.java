abstract class A { A() { init(); } abstract void init(@UnderInitialization A this); }
class B extends A { String s = "x"; void init() { s.length(); } }
