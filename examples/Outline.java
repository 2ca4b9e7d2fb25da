// A document whose sections know their parent and their document. The document, its first two sections and its cursor are
// built within one constructor and refer to each other; they are whole when it ends. `nullcheck` answers: accepted.
package demo;

import org.checkerframework.checker.initialization.qual.UnderInitialization;
import org.checkerframework.checker.initialization.qual.UnknownInitialization;
import org.checkerframework.checker.nullness.qual.Nullable;

public class Outline {
  final Section root;
  final Section index;
  final Cursor cursor;
  int sections;

  Outline(String title) {
    root = new Section(this, null, title);
    index = new Section(this, root, "Index");
    cursor = new Cursor(this, index);
    count();
  }

  // Called before the object is whole, so it reads nothing but numbers.
  private void count() {
    sections += 2;
  }

  Section add(Section parent, String title) {
    Section made = new Section(this, parent, title);
    parent.adopt(made);
    sections++;
    return made;
  }

  public static void main(String[] args) {
    Outline outline = new Outline("Manual");
    Section tools = outline.add(outline.root, "Tools");
    outline.add(tools, "Hammer");
    outline.add(tools, "Saw");
    outline.root.adopt(outline.index);
    outline.root.print();
    outline.cursor.up();
    while (outline.cursor.down()) {
      System.out.println(outline.cursor.title());
    }
    Section found = outline.root.find("Saw");
    System.out.println(found == null ? "none" : found.path() + " of " + outline.sections);
  }
}

class Section {
  final Outline outline;
  final @Nullable Section parent;
  final String title;
  private @Nullable Section first;
  private @Nullable Section next;

  // Takes an outline and a parent that may be whole or not.
  Section(@UnknownInitialization Outline outline, @UnknownInitialization @Nullable Section parent, String title) {
    this.outline = outline;
    this.parent = parent;
    this.title = title;
  }

  void adopt(Section child) {
    child.next = first;
    first = child;
  }

  @Nullable Section child() {
    return first;
  }

  int depth() {
    int n = 0;
    for (Section s = parent; s != null; s = s.parent) {
      n++;
    }
    return n;
  }

  String path() {
    return parent == null ? title : parent.path() + "/" + title;
  }

  @Nullable Section find(String wanted) {
    if (title.equals(wanted)) {
      return this;
    }
    for (Section s = first; s != null; s = s.next) {
      Section found = s.find(wanted);
      if (found != null) {
        return found;
      }
    }
    return null;
  }

  void print() {
    String indent = "";
    for (int i = depth(); i > 0; i--) {
      indent += "  ";
    }
    System.out.println(indent + title);
    Section s = first;
    while (s != null) {
      s.print();
      s = s.next;
    }
  }
}

class Cursor {
  private final Outline outline;
  private Section at;

  Cursor(@UnderInitialization Outline outline, @UnknownInitialization Section at) {
    this.outline = outline;
    this.at = at;
  }

  String title() {
    return at.title;
  }

  void up() {
    Section parent = at.parent;
    at = parent == null ? outline.root : parent;
  }

  boolean down() {
    Section child = at.child();
    if (child == null) {
      return false;
    }
    at = child;
    return true;
  }
}
