class StopNested {
  static class B { }
}
