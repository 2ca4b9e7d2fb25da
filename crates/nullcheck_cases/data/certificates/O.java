class B {
  String get(String s) { return "a"; }

  void use(B b) { b.get(null); }
}

class D extends B {
  String get(String s) { return "b"; }
}
