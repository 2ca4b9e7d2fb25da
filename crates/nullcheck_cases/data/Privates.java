class Privates {
  private String who() { return "upper"; }
  static String kind() { return "kind of upper"; }
  String told() { return who(); }
  String shown() { return told() + ", " + kind(); }

  public static void main(String[] args) {
    Privates p = new Lower();
    System.out.println(p.shown());
    System.out.println(p.who());
    System.out.println(Lower.kind());
  }
}

class Lower extends Privates {
  String who() { return "lower"; }
  static String kind() { return "kind of lower"; }
  String shown() { return "(" + super.shown() + ") " + who(); }
}
