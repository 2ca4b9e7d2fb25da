package demo;
import org.checkerframework.checker.nullness.qual.Nullable;
public class Stack {
  private @Nullable Cell top;
  private int size;
  public void push(String text) {
    top = new Cell(text, top);
    size++;
  }
  public @Nullable String pop() {
    Cell c = top;
    if (c == null) return null;
    top = c.below;
    size--;
    return c.text;
  }
  public static void main(String[] args) {
    Stack s = new Stack();
    for (String a : args) s.push(a);
    String t = s.pop();
    while (t != null) {
      System.out.println(t);
      t = s.pop();
    }
  }
}
class Cell {
  final String text;
  final @Nullable Cell below;
  Cell(String text, @Nullable Cell below) { this.text = text; this.below = below; }
}
