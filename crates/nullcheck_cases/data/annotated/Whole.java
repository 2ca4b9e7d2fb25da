class Whole {
  private String s = "s";
}
class Initialized { }
