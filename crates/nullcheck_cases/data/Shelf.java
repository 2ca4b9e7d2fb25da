import org.checkerframework.checker.nullness.qual.Nullable;

class Item {
  final int weight;

  Item(int weight) {
    this.weight = weight;
  }
}

class Crate extends Item {
  private final @Nullable Item[] inside;

  Crate(int room) {
    super(1);
    inside = new @Nullable Item[room];
  }

  @Nullable Item put(int at, @Nullable Item item) {
    Item before = inside[at];
    inside[at] = item;
    return before;
  }

  boolean holds(int at) {
    return inside[at] != null;
  }

  int total() {
    int sum = weight;
    for (int i = 0; i < inside.length; i = i + 1) {
      Item item = inside[i];
      if (item != null) {
        if (item instanceof Crate) {
          sum = sum + ((Crate) item).total();
        } else {
          sum = sum + item.weight;
        }
      }
    }
    return sum;
  }

  static Crate of(Object given) {
    return (Crate) given;
  }

  static Item[] items(Item one, Item other) {
    return new Item[] {one, other};
  }

  static Crate[] crates(Crate one) {
    return new Crate[] {one};
  }

  static void set(Item[] items, Item item) {
    items[0] = item;
  }

  static int pick(boolean first, int one, int other) {
    if (first) return one;
    return other;
  }
}
