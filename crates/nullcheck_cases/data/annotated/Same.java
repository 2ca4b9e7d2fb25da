package demo; import org.checkerframework.checker.nullness.qual.Nullable; class Same { private String s = "s"; private @Nullable String t; }
