abstract class OtherShape { OtherShape(int n) { } abstract void draw(); }
interface OtherPlan { }
class OtherBodies {
  static int made;
  static void log(String s) { }
  int area(int a, int b) { return a; }
  void same(int n) {
    int n = 1;
    for (int i = 0; i < n; i++) { int i = 2; }
    int i = 3;
  }
  void calls(OtherBodies o) {
    area(1);
    o.log("x");
    OtherBodies.area(1, 2);
    o.made = 1;
    new OtherShape();
    new OtherPlan();
    new OtherBodies(1, 2);
    o.none();
    int k = area(1, 2)[0];
  }
}
class OtherCircle extends OtherShape { void draw() { } }
