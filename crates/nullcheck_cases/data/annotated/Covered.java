package demo;
import org.checkerframework.checker.nullness.qual.*;
import org.checkerframework.checker.initialization.qual.*;
class Covered {
  private String name = "covered";
  private int length() { return this.name.length(); }
  int twice() { return this.length() * 2; }
}
