class Start {
  public static void main() { System.out.println("no words"); }
  public static void main(String[] args, int n) { System.out.println("two"); }
}

abstract class Right extends Start {
  public static final void main(@NonNull String @Initialized [] args) { System.out.println("the one " + args.length); }
}

class Below extends Right { }

class Upper { public static void Main(String[] args) { System.out.println("Main"); } }
class Friend { static void main(String[] args) { System.out.println("not public"); } }
class Own { private static void main(String[] args) { System.out.println("private"); } }
class Kin { protected static void main(String[] args) { System.out.println("protected"); } }
class Member { public void main(String[] args) { System.out.println("not static"); } }
class Number { public static int main(String[] args) { return 1; } }
class Flag { public static boolean main(String[] args) { return true; } }
class Text { public static String main(String[] args) { return "result"; } }
class OfText { public static void main(String args) { System.out.println("one text"); } }
class OfNumbers { public static void main(int[] args) { System.out.println("numbers"); } }
class OfObjects { public static void main(Object[] args) { System.out.println("objects"); } }
class MayBeNull { public static void main(String @Nullable [] args) { System.out.println("null"); } }
class MayHoldNull { public static void main(@Nullable String[] args) { System.out.println("null in it"); } }
class MayBeFree { public static void main(String @UnderInitialization [] args) { System.out.println("free"); } }
