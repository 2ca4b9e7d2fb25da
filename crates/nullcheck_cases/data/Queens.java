class Queens {
  final int size;
  private int[] columns;
  private int found = 0;

  Queens(int size) {
    this.size = size;
    columns = new int[size];
  }

  private boolean fits(int row, int column) {
    for (int above = 0; above < row; above++) {
      int other = columns[above];
      int far = row - above;
      if (other == column || other == column + far || other == column - far) return false;
    }
    return true;
  }

  private void place(int row) {
    if (row == size) {
      found++;
      return;
    }
    for (int column = 0; column < size; column++) {
      if (!fits(row, column)) continue;
      columns[row] = column;
      place(row + 1);
    }
  }

  int solutions() {
    found = 0;
    place(0);
    return found;
  }

  public static void main(String[] args) {
    for (int size = 1; size <= 6; size++) System.out.println(new Queens(size).solutions());
  }
}
