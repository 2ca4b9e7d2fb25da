interface Shape { int area(); }
class Square implements Shape {
  final int side;
  Square(int side) { this.side = side; }
  public int area() { return side * side; }
  static int sum(Shape[] shapes) {
    int total = 0;
    for (Shape s : shapes) total += s.area();
    return total;
  }
  static int two(Square a, Shape b) {
    Shape[] both = new Shape[] { a, b };
    Square[] one = new Square[] { a };
    Object any = one;
    return sum(both) + sum(one) + (any == null ? 0 : 1);
  }
}
