class BitWhole {
  static void take(@UnderInitialization BitWhole b) { }
  void early(@UnderInitialization BitWhole this) { }
  void rows(@UnknownInitialization BitWhole b) {
    take(b);
    b.early();
    @UnderInitialization BitWhole c = b;
    @Initialized BitWhole d = b;
  }
  @UnderInitialization BitWhole result(BitWhole b) {
    return b;
  }
}
