class StopValues {
  @SuppressWarnings("x") void f() { }
}
