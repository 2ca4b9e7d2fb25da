interface Named {
  String name();
}

class Animal {
  String name() { return "animal"; }
}

class Dog extends Animal implements Named {
  public String name() { return "dog"; }
  int age() { return 3; }
}

class Cat extends Animal { }

class Casts {
  static String kind(@Nullable Object o) {
    if (o instanceof Named) return ((Named) o).name() + " " + ((Dog) o).age();
    if (o instanceof Animal) return "only " + ((Animal) o).name();
    if (o instanceof String) return "text " + ((String) o).length();
    return o instanceof Object ? "object" : "nothing";
  }

  public static void main(String[] args) {
    Animal none = (Animal) null;
    Animal cat = new Cat();
    System.out.println(kind(new Dog()));
    System.out.println(kind(cat));
    System.out.println(kind("abc"));
    System.out.println(kind(args));
    System.out.println(kind(none));
    if (args.length == 1) cat = (Dog) cat;
    Object all = args;
    if (args.length == 2) System.out.println(1 + ((String) all).length());
    Named named = (Named) all;
  }
}
