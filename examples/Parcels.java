// A depot whose van and ledger know it, and stops on the way of the van. No member has an access word but `main`, and not one
// annotation stands here: what may be null, and what may not be whole yet, is found. `nullcheck --infer package` answers:
// accepted. Without the option each member is taken to want what is not null and whole, and there are mistakes.
package demo;

class Depot {
  Van van;
  Ledger ledger;
  Parcel first;
  int parcels;

  // Both are handed a depot that isn't whole.
  Depot(String town) {
    van = new Van(this, town);
    ledger = new Ledger(this);
  }

  void take(String town, String note) {
    Parcel parcel = new Parcel(town, note, first);
    first = parcel;
    parcels++;
    ledger.write(parcel);
  }

  Parcel find(String town) {
    for (Parcel p = first; p != null; p = p.next) {
      if (p.town.equals(town)) {
        return p;
      }
    }
    return null;
  }

  public static void main(String[] args) {
    Depot depot = new Depot("Aarhus");
    System.out.println(depot.ledger.last());
    depot.take("Ribe", null);
    depot.take("Skagen", "fragile");
    depot.take("Ribe", "upside down");
    Stop ribe = new Stop("Ribe", null);
    depot.van.drive(new Harbour("Skagen", ribe, "pier 2"));
    depot.van.drive(new Harbour("Ribe", ribe, "pier 1"));
    System.out.println(depot.parcels + " parcels, " + depot.ledger.last());
  }
}

class Parcel {
  String town;
  String note;
  Parcel next;

  Parcel(String town, String note, Parcel next) {
    this.town = town;
    this.note = note;
    this.next = next;
  }

  String label() {
    return note == null ? town : town + " (" + note + ")";
  }
}

// The first stop has none before it.
class Stop {
  String town;
  Stop before;

  Stop(String town, Stop before) {
    this.town = town;
    this.before = before;
  }

  // What is left here, if anything is. The wish is of no matter.
  Parcel pick(Depot depot, String wish) {
    return depot.find(town);
  }
}

class Harbour extends Stop {
  String pier;

  Harbour(String town, Stop before, String pier) {
    super(town, before);
    this.pier = pier;
  }

  // Nobody calls this by its name: what a stop is given comes here, and what is given back goes there.
  Parcel pick(Depot depot, String wish) {
    if (wish == null) {
      System.out.println("nothing for " + pier);
      return null;
    }
    return depot.find(wish);
  }
}

class Van {
  Depot depot;
  String home;
  String wish;

  Van(Depot depot, String home) {
    this.depot = depot;
    this.home = home;
  }

  void drive(Stop to) {
    for (Stop stop = to; stop != null; stop = stop.before) {
      Parcel parcel = stop.pick(depot, wish);
      if (parcel != null) {
        System.out.println(stop.town + ": " + parcel.label());
        wish = parcel.town;
      }
    }
  }
}

class Ledger {
  Depot depot;
  String line;

  Ledger(Depot depot) {
    this.depot = depot;
  }

  void write(Parcel parcel) {
    line = parcel.label();
  }

  String last() {
    return line == null ? "nothing in " + depot.van.home : line;
  }
}
