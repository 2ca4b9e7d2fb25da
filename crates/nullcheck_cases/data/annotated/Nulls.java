class Nulls {
  private String s = "s";
}
class Nullable { }
