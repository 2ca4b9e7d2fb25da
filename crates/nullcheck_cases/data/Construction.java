class Base {
  static int made = 0;
  final String label;
  int first = said("first", 1);

  Base(String label) {
    this.label = label;
    made++;
    System.out.println("Base of " + label);
    show();
  }

  static int said(String what, int n) {
    System.out.println(what + " " + made);
    return n;
  }

  void show(@UnknownInitialization Base this) { System.out.println("only " + first); }
}

class Derived extends Base {
  int second = said("second", first + 1);
  String tail = "tail";
  int third = second++, fourth = second;

  Derived(int n, int k) {
    this("derived" + n + k);
    System.out.println("Derived of " + n + k + " " + third + fourth);
  }

  Derived(String s) {
    super(text(s));
    tail += "!";
    System.out.println("Derived of " + s + " " + tail);
  }

  static String text(String s) {
    System.out.println("argument " + s);
    return s + "?";
  }

  void show(@UnknownInitialization Derived this) { System.out.println("shown " + first + second + " " + tail); }
}

class Construction {
  public static void main(String[] args) {
    Derived d = new Derived(7, 8);
    d.show();
    new Base("base");
    System.out.println(d.label + " " + Base.made);
  }
}
