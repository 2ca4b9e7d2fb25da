class Counter {
  int count;
  int total;
}

class Fields {
  public static void main(String[] args) {
    Counter counter = new Counter();
    int i = 0;
    while (i < 5000000) {
      counter.count = i;
      counter.total = counter.total + counter.count;
      i = i + 1;
    }
    System.out.println(counter.total);
  }
}
