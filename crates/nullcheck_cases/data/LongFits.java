interface LongRuns { void run(); }
class LongBase {
  private int size;
  final void stop() { }
  LongBase() { this(1); }
  LongBase(int n) { this(); }
}
class LongNext extends LongBase {
  int size;
  void stop() { }
}
class LongIdle implements LongRuns { }
final class LongLast { }
class LongAfter extends LongLast { }
