// Expressions in postfix notation, read into a tree and evaluated over names. `nullcheck` answers: accepted.
package demo;

import org.checkerframework.checker.nullness.qual.Nullable;

public class Calculator {
  public static void main(String[] args) {
    Binding names = new Binding("y", 7, new Binding("x", 3, null));
    Expression e = new Reader(args.length).read(args);
    if (e == null) {
      System.out.println("not well formed");
      return;
    }
    Number n = e.value(names);
    System.out.println(e.text() + " = " + (n == null ? "unknown" : n.text()));
  }
}

abstract class Expression {
  // Null where a name is unknown or a divisor is 0.
  abstract @Nullable Number value(@Nullable Binding names);

  abstract String text();
}

class Number extends Expression {
  final int number;

  Number(int number) {
    this.number = number;
  }

  Number value(@Nullable Binding names) {
    return this;
  }

  String text() {
    return "" + number;
  }
}

class Name extends Expression {
  final String name;

  Name(String name) {
    this.name = name;
  }

  @Nullable Number value(@Nullable Binding names) {
    for (Binding b = names; b != null; b = b.rest) {
      if (b.name.equals(name)) {
        return new Number(b.value);
      }
    }
    return null;
  }

  String text() {
    return name;
  }
}

class Operation extends Expression {
  final String sign;
  final Expression left;
  final Expression right;

  Operation(String sign, Expression left, Expression right) {
    this.sign = sign;
    this.left = left;
    this.right = right;
  }

  @Nullable Number value(@Nullable Binding names) {
    Number a = left.value(names);
    Number b = right.value(names);
    return a == null || b == null ? null : combined(a.number, b.number);
  }

  private Number combined(int a, int b) {
    if (sign.equals("/")) {
      return b == 0 ? null : new Number(a / b);
    }
    return new Number(sign.equals("+") ? a + b : sign.equals("-") ? a - b : a * b);
  }

  String text() {
    return "(" + left.text() + " " + sign + " " + right.text() + ")";
  }
}

class Binding {
  final String name;
  final int value;
  final @Nullable Binding rest;

  Binding(String name, int value, @Nullable Binding rest) {
    this.name = name;
    this.value = value;
    this.rest = rest;
  }
}

class Reader {
  private final @Nullable Expression[] stack;
  private int depth;

  Reader(int most) {
    stack = new @Nullable Expression[most];
  }

  private void push(Expression e) {
    stack[depth] = e;
    depth++;
  }

  private @Nullable Expression pop() {
    if (depth == 0) {
      return null;
    }
    depth--;
    return stack[depth];
  }

  private static int digit(String word) {
    int n = 0;
    for (String d : new String[] { "0", "1", "2", "3", "4", "5", "6", "7", "8", "9" }) {
      if (d.equals(word)) {
        return n;
      }
      n++;
    }
    return -1;
  }

  private static boolean isSign(String word) {
    return word.equals("+") || word.equals("-") || word.equals("*") || word.equals("/");
  }

  @Nullable Expression read(String[] words) {
    for (String word : words) {
      if (isSign(word)) {
        Expression right = pop();
        Expression left = pop();
        if (left == null || right == null) {
          return null;
        }
        push(new Operation(word, left, right));
      } else if (digit(word) < 0) {
        push(new Name(word));
      } else {
        push(new Number(digit(word)));
      }
    }
    return depth == 1 ? pop() : null;
  }
}
