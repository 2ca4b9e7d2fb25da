/* A /* comment. */ class Positions {
  private /* a */ String/* b */s;
	private	String	x , y = "y";
  private String // to the end
    [ ] many = new String[0];

  Positions() { x = "x"; }

  private Positions(int n, String c) { x = c; }

  private void named(Positions this, String a) { }

  private String both(final String a,String [] b) { return a; }

  private
  static String
    alone( String d ) { return d; }

  private int count( /* none */ ) { return 0; }

  void use() {
    this.named(null);
    this.named("a");
    this.both("a", new String[0]);
    s = alone("d");
    new Positions(this.count(), "c");
  }
}
