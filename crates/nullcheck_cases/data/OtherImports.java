import java.util.List;
import org.checkerframework;
import org.*;
import org;
import org.checkerframework.checker.X;
import checkerframework.org.X;
import org.other.checkerframework.*;
class A { }
