// A file of a package.
package demo; // its line

import org.checkerframework.checker.nullness.qual.Nullable;

/** Says what it has. */
class Pack {
  private String name = "pack";
  private @Nullable String other;
  private int length() { return this.name.length(); }
  int twice() { return this.length() * 2; }
}
