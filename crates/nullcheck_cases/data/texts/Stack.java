import org.checkerframework.checker.nullness.qual.Nullable;

/** Texts in a pile: the newest is the first that is taken. */
public class Stack {
  private @Nullable Cell top = null;
  private int size = 0;

  public void push(String text) {
    top = new Cell(text, top);
    size++;
  }

  public @Nullable String pop() {
    Cell cell = top;
    if (cell == null) {
      return null;
    }
    top = cell.below();
    size--;
    return cell.text();
  }

  public int size() { return size; }

  public static void main(String[] args) {
    Stack stack = new Stack();
    for (String arg : args) {
      stack.push(arg);
    }
    if (stack.size() != args.length) {
      System.out.println("lost some");
    }
    String text = stack.pop();
    while (text != null) {
      System.out.println(text);
      text = stack.pop();
    }
  }
}

final class Cell {
  private final String text;
  private final @Nullable Cell below;

  Cell(String text, @Nullable Cell below) {
    this.text = text;
    this.below = below;
  }

  String text() { return text; }
  @Nullable Cell below() { return below; }
}
