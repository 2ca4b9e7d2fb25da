import org.checkerframework.checker.nullness.qual.Nullable;

interface Named {
  String name();
}

class Link implements Named {
  private String name;
  private int asked = 0;
  @Nullable Link next = null;

  Link(String name) {
    this.name = name;
  }

  public String name() {
    asked = asked + 1;
    return name;
  }

  void join(@Nullable Link other) {
    next = other;
  }

  int length() {
    int count = 1;
    Link at = next;
    while (at != null) {
      count = count + 1;
      at = at.next;
    }
    return count;
  }

  String last() {
    Link at = next;
    if (at == null) return name;
    return at.last();
  }
}

class Loud extends Link {
  Loud(String name) {
    super(name);
  }

  public String name() {
    return super.name() + "!";
  }
}

class Share {
  final Link among;
  final int part;

  Share(int all, Link among) {
    this.among = among;
    this.part = all / (among.length() - 1);
  }
}

class Links {
  static int made = 0;

  static Link pair(String first, @Nullable String second) {
    made = made + 1;
    Link link = new Link(first);
    if (second != null) link.join(new Link(second));
    return link;
  }

  static @Nullable String nameOf(@Nullable Named named) {
    System.out.println(made);
    if (named == null) return null;
    return named.name();
  }
}
