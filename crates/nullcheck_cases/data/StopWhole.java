class StopWhole {
  public private int x;
}
