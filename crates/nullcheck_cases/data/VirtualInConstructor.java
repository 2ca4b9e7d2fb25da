abstract class Shape {
  final int sides;
  Shape() { sides = count(); }
  abstract int count(@UnderInitialization Shape this);
}
class Square extends Shape {
  final String name;
  Square() { name = "square"; }
  int count(@UnderInitialization Square this) { return 4; }
}
class Named extends Shape {
  final String name = "n";
  int count(@UnderInitialization Named this) { return name == null ? 0 : name.length(); }
}
