import org.checkerframework.*;
import org.checkerframework.checker.initialization.qual.NonNull;
class Wider {
  private String s = "s";
}
