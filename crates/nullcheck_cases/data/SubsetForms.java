import java.util.List;
class SubsetForms {
  @Deprecated void a() { }
  @Nullable int n;
  @Initialized SubsetForms whole;
  void b(@MonotonicNonNull String s) { }
  void c(@Nullable SubsetForms this) { }
  void d(@NonNull @Nullable String s) { }
  static String t = "x";
  int wait;
  boolean e(SubsetForms o, String s) {
    s.charAt(0);
    System.exit(0);
    o.equals(s);
    o.toString();
    return s == o.u();
  }
  String u() { return ""; }
}
interface SubsetParts {
  int x = 1;
}
