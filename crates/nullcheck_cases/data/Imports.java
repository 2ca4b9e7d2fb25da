package demo.app;
import org.checkerframework.checker.nullness.qual.Nullable;
import org.checkerframework.*;
import org.checkerframework.qual.*;
import org.checkerframework.Nullable;
class A { @Nullable A next; }
