interface I {
  int x = 1;
  public static final boolean y = true, z = false;
  int wait = 2;
  @Initialized A a = null;
  int f();
}
class A { boolean g() { return I.x == 1 && I.y; } }
