// The field `user` is tested, and then an object is made whose constructor sets it to null. A checker that drops what it
// knows of fields at calls of methods, but keeps it over `new`, accepts this file, and `main` ends with a
// NullPointerException. `nullcheck` answers:
//
//     examples/KeptOverNew.java:19:12: DEREF
//     rejected 1
package demo;

import org.checkerframework.checker.nullness.qual.Nullable;

public class KeptOverNew {
  @Nullable User user;

  String leave() {
    if (user == null) {
      return "nobody";
    }
    new Farewell(this);
    return user.name + " has left";
  }

  // The same with a local, which nobody else can change: no row.
  String leaveKnown() {
    User known = user;
    if (known == null) {
      return "nobody";
    }
    new Farewell(this);
    return known.name + " has left";
  }

  public static void main(String[] args) {
    KeptOverNew session = new KeptOverNew();
    session.user = new User("ada");
    System.out.println(session.leaveKnown());
    session.user = new User("ben");
    System.out.println(session.leave());
  }
}

class User {
  final String name;

  User(String name) {
    this.name = name;
  }
}

class Farewell {
  Farewell(KeptOverNew session) {
    session.user = null;
  }
}
