// A list of texts, linked in both directions, with an iterator that can remove. `nullcheck` answers: accepted.
package demo;

import org.checkerframework.checker.nullness.qual.Nullable;

interface TextIterator {
  boolean hasNext();

  @Nullable String next();

  void remove();
}

public class LinkedTexts {
  private @Nullable Link first;
  private @Nullable Link last;
  private int size;

  public int size() {
    return size;
  }

  public void add(String text) {
    Link link = new Link(text, last);
    if (last == null) {
      first = link;
    } else {
      last.next = link;
    }
    last = link;
    size++;
  }

  public @Nullable String get(int index) {
    int i = 0;
    for (Link link = first; link != null; link = link.next) {
      if (i == index) {
        return link.text;
      }
      i++;
    }
    return null;
  }

  void unlink(Link link) {
    Link before = link.before;
    Link next = link.next;
    if (before == null) {
      first = next;
    } else {
      before.next = next;
    }
    if (next == null) {
      last = before;
    } else {
      next.before = before;
    }
    size--;
  }

  public TextIterator iterator() {
    return new LinkIterator(this, first);
  }

  public String joined(String separator) {
    String all = "";
    TextIterator it = iterator();
    String text = it.next();
    while (text != null) {
      all += all.isEmpty() ? text : separator + text;
      text = it.next();
    }
    return all;
  }

  public static void main(String[] args) {
    LinkedTexts texts = new LinkedTexts();
    for (String arg : args) {
      texts.add(arg);
    }
    TextIterator it = texts.iterator();
    while (it.hasNext()) {
      String text = it.next();
      if (text == null || text.equals("-")) {
        it.remove();
      }
    }
    System.out.println(texts.size() + ": " + texts.joined(", "));
    String third = texts.get(2);
    System.out.println(third == null ? "no third text" : third);
  }
}

class Link {
  final String text;
  @Nullable Link before;
  @Nullable Link next;

  Link(String text, @Nullable Link before) {
    this.text = text;
    this.before = before;
  }
}

class LinkIterator implements TextIterator {
  private final LinkedTexts list;
  private @Nullable Link ahead;
  private @Nullable Link current;

  LinkIterator(LinkedTexts list, @Nullable Link start) {
    this.list = list;
    ahead = start;
  }

  public boolean hasNext() {
    return ahead != null;
  }

  public @Nullable String next() {
    Link link = ahead;
    if (link == null) {
      return null;
    }
    ahead = link.next;
    current = link;
    return link.text;
  }

  public void remove() {
    if (current != null) {
      list.unlink(current);
      current = null;
    }
  }
}
