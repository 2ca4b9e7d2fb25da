class Row {
  final int[] cells;
  boolean[] marks = new boolean[1];

  Row(int[] cells) { this.cells = cells; }
}

class Grid {
  static int sum(@Nullable Row[] rows) {
    int sum = 0;
    for (Row row : rows) {
      if (row == null) continue;
      for (int cell : row.cells) sum += cell;
    }
    return sum;
  }

  public static void main(String[] args) {
    @Nullable Row[] rows = new @Nullable Row[3];
    int[] shared = new int[2];
    rows[0] = new Row(shared);
    rows[2] = new Row(shared);
    shared[1] = 7;
    System.out.println(sum(rows) + " " + (rows[1] == null));
    Row last = rows[2];
    if (last != null) {
      last.cells[0] -= 4;
      last.marks[0] = last.cells == shared;
      System.out.println(last.marks[0]);
      last.marks = new boolean[last.cells.length];
      System.out.println(last.marks[0] + " " + last.marks.length);
    }
    System.out.println(sum(rows) + " " + new int[0].length);
    Object any = rows;
    System.out.println(any instanceof Object);
    System.out.println(any instanceof Row);
  }
}
