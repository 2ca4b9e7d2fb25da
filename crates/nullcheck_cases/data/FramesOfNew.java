class Link {
  @Nullable Link next = null;

  Link(int n) {
    if (n > 1) next = new Link(n - 1);
  }
}

class FramesOfNew {
  public static void main(String[] args) {
    Link first = new Link(4095 + args.length);
    System.out.println(first.next == null);
  }
}
