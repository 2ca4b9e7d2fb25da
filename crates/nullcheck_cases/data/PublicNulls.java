class A {
  public void put(@Nullable String s) { }
  public static void take(String s) { }
  public void pass(@Nullable String s) { take(s); }
}
class B extends A {
  public void put(String s) { }
}
