package demo;

import org.checkerframework.checker.initialization.qual.Initialized;
import org.checkerframework.checker.nullness.qual.NonNull;

class Single {
  private String name = "single";
  private int length() { return this.name.length(); }
  int twice() { return this.length() * 2; }
}
