class WhyThere {
  @Nullable String text;
  int size(WhyFree f) {
    return f.name.length();
  }
}
class WhyFree {
  @Nullable String name;
}
