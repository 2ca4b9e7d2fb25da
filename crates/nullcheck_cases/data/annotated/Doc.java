/* Copyright. */

/** A class. */
class Doc {
  private String s = "s";
}
