// A field that must not be null, and that no constructor sets: CTOR-FIELDS at 2:7.
class Later {
  String name;
}
