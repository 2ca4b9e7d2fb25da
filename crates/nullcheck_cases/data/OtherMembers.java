interface OtherRuns { void run(); int size(); }
class OtherBase {
  int count;
  int size() { return 1; }
  final void stop() { }
  static void log(String s) { }
}
class OtherMembers extends OtherBase implements OtherRuns {
  boolean count;
  void stop() { }
  void log(String s) { }
}
abstract class OtherHalf {
  abstract void first();
  abstract void second() { }
}
class OtherWhole extends OtherHalf {
  void second() { }
}
class OtherUnder extends OtherMembers {
  int count;
}
