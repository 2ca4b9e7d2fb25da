class Half {
  private String s = "s";
  void set(@NonNull @Initialized String t) { this.s = t; }
}
