class OtherNames {
  int size;
  String size;
  void put(int n, String n) { }
  void put(String s, int k) { }
}
class OtherPart {
  void OtherPart() { }
}
class OtherNames { }
class System { }
class String { }
