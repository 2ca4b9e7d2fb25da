class Far {
  private String a = "a";
  int one() { return 1; }
  int two() { return 2; }
  int three() { return 3; }
  int four() { return 4; }
  int five() { return 5; }
  int six() { return 6; }
  private String b = "b";
  int seven() { return 7; }
  int eight() { return 8; }
  int nine() { return 9; }
  int ten() { return 10; }
  int eleven() { return 11; }
  int twelve() { return 12; }
  int thirteen() { return 13; }
  private String c = "c";
}
