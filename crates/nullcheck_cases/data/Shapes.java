interface Shape {
  int area();
  String name();
}

abstract class Named implements Shape {
  private final String name;

  Named(String name) { this.name = name; }

  public String name() { return name; }
  String shown() { return name() + " " + area(); }
}

class Rectangle extends Named {
  final int width;
  final int height;

  Rectangle(int width, int height) { this("rectangle", width, height); }

  Rectangle(String name, int width, int height) {
    super(name);
    this.width = width;
    this.height = height;
  }

  public int area() { return width * height; }
}

class Square extends Rectangle {
  Square(int side) { super("square", side, side); }

  String shown() { return "[" + super.shown() + "]"; }
}

class Dot extends Named {
  Dot() { super("dot"); }

  public int area() { return 0; }
  public String name() { return "little " + super.name(); }
}

class Shapes {
  public static void main(String[] args) {
    Named[] all = new Named[] { new Rectangle(2, 3), new Square(4), new Dot() };
    int area = 0;
    for (Named one : all) System.out.println(one.shown());
    Shape[] shapes = all;
    for (Shape one : shapes) area += one.area();
    System.out.println(area);
  }
}
