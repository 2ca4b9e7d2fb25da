interface Term {
  int value();
  String shown();
  Term doubled();
}

final class Constant implements Term {
  final int number;

  Constant(int number) { this.number = number; }

  public int value() { return number; }
  public String shown() { return "" + number; }
  public Constant doubled() { return new Constant(2 * number); }
}

abstract class Operation implements Term {
  final Term left;
  final Term right;

  Operation(Term left, Term right) {
    this.left = left;
    this.right = right;
  }

  abstract String sign();
  public String shown() { return "(" + left.shown() + sign() + right.shown() + ")"; }
}

class Sum extends Operation {
  Sum(Term left, Term right) { super(left, right); }

  String sign() { return "+"; }
  public int value() { return left.value() + right.value(); }
  public Term doubled() { return new Sum(left.doubled(), right.doubled()); }
}

class Product extends Operation {
  Product(Term left, Term right) { super(left, right); }

  String sign() { return "*"; }
  public int value() { return left.value() * right.value(); }
  public Term doubled() { return new Product(left, right.doubled()); }
}

class Quotient extends Product {
  Quotient(Term left, Term right) { super(left, right); }

  String sign() { return "/"; }
  public int value() { return left.value() / right.value(); }
  public Term doubled() { return new Quotient(left.doubled(), right); }
}

class Terms {
  static void show(Term t) { System.out.println(t.shown() + " = " + t.value()); }

  public static void main(String[] args) {
    Term t = new Sum(new Product(new Constant(3), new Constant(-4)), new Constant(5));
    show(t);
    show(t.doubled());
    show(new Quotient(new Constant(29), t).doubled());
    Term zero = new Sum(t, new Constant(args.length));
    System.out.println(zero.shown());
    show(new Quotient(t, zero));
  }
}
