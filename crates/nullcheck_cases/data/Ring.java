class Ring {
  Ring next;
  Ring previous;
  final int number;

  Ring(int number) {
    this.number = number;
    next = this;
    previous = this;
  }

  Ring add(int number) {
    Ring added = new Ring(number);
    added.previous = this;
    added.next = next;
    next.previous = added;
    next = added;
    return added;
  }

  void leave() {
    previous.next = next;
    next.previous = previous;
  }

  public static void main(String[] args) {
    Ring last = new Ring(1);
    for (int i = 2; i <= 7; i++) last = last.add(i);
    while (last != last.next) {
      Ring out = last.next.next.next;
      System.out.println("out " + out.number);
      out.leave();
      last = out.previous;
    }
    System.out.println("left " + last.number);
  }
}
