class Part { void start() { } }
class Car {
  Part part;
  Car() {
    part = new Part();
    part.start();
    Part p = new Part();
    p.start();
    part = p;
    p.start();
    part.start();
  }
  void drive() { part.start(); }
}
