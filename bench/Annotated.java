import java.io.File;
import java.io.IOException;
import java.nio.charset.StandardCharsets;
import java.nio.file.Files;
import java.nio.file.Path;
import java.nio.file.Paths;
import java.nio.file.StandardCopyOption;
import java.util.ArrayList;
import java.util.Arrays;
import java.util.Collections;
import java.util.List;
import java.util.regex.Matcher;
import java.util.regex.Pattern;
import java.util.stream.Collectors;
import java.util.stream.Stream;
import javax.tools.Diagnostic;
import javax.tools.DiagnosticCollector;
import javax.tools.JavaCompiler;
import javax.tools.JavaFileObject;
import javax.tools.StandardJavaFileManager;
import javax.tools.ToolProvider;

/**
 * Annotates files with imports, and compiles them again: each file that the Java compiler takes alone, with the annotations in their own
 * packages only, it has to take with all that was written into it.
 */
public final class Annotated {
  private static final String CHECKER = "org.checkerframework.checker.";
  private static final List<String> NULLNESS = Arrays.asList("Nullable", "NonNull", "MonotonicNonNull");
  private static final List<String> INITIALIZATION =
      Arrays.asList("Initialized", "UnderInitialization", "UnknownInitialization");
  private static final List<String> TARGETS =
      Arrays.asList("TYPE_USE", "TYPE", "CONSTRUCTOR", "METHOD", "FIELD", "PARAMETER", "LOCAL_VARIABLE");
  private static final Pattern PUBLIC =
      Pattern.compile("\\bpublic\\s+(?:(?:final|abstract)\\s+)*(?:class|interface)\\s+(\\w+)");

  private final Path scratch;
  private final String annotator;
  private final JavaCompiler compiler = ToolProvider.getSystemJavaCompiler();
  private int compiled;
  private int changed;
  private int unchanged;
  private int without;
  private int refused;

  private Annotated(Path scratch, String annotator) throws IOException {
    this.scratch = scratch;
    this.annotator = annotator;
    List<File> sources = new ArrayList<>();
    for (String name : NULLNESS) {
      sources.add(makeAnnotation(CHECKER + "nullness.qual", name).toFile());
    }
    for (String name : INITIALIZATION) {
      sources.add(makeAnnotation(CHECKER + "initialization.qual", name).toFile());
    }
    if (!errors(sources, scratch.resolve("annotations")).isEmpty()) {
      throw new IOException("the annotations don't compile");
    }
  }

  /** Words: a scratch folder, the built nullcheck_annotate, and folders of files. */
  public static void main(String[] args) throws Exception {
    Annotated annotated = new Annotated(Paths.get(args[0]), args[1]);
    for (String folder : Arrays.asList(args).subList(2, args.length)) {
      try (Stream<Path> files = Files.list(Paths.get(folder))) {
        for (Path file : files.filter(path -> path.toString().endsWith(".java")).sorted().collect(Collectors.toList())) {
          annotated.take(file);
        }
      }
    }
    System.exit(annotated.finish());
  }

  private Path makeAnnotation(String folder, String name) throws IOException {
    Path source = scratch.resolve("sources").resolve(folder.replace('.', '/')).resolve(name + ".java");
    Files.createDirectories(source.getParent());
    String targets = TARGETS.stream().map(one -> "java.lang.annotation.ElementType." + one).collect(Collectors.joining(", "));
    String text = "package " + folder + ";\n@java.lang.annotation.Target({" + targets + "})\npublic @interface " + name + " { }\n";
    Files.write(source, text.getBytes(StandardCharsets.UTF_8));
    return source;
  }

  /** The errors of files, of which the classes go into a folder. */
  private List<String> errors(List<File> files, Path folder) throws IOException {
    Files.createDirectories(folder);
    DiagnosticCollector<JavaFileObject> found = new DiagnosticCollector<>();
    List<String> options = Arrays.asList("--release", "8", "-proc:none", "-nowarn", "-Xlint:none", "-encoding", "UTF-8",
        "-cp", scratch.resolve("annotations").toString(), "-sourcepath", scratch.resolve("none").toString(), "-d", folder.toString());
    try (StandardJavaFileManager manager = compiler.getStandardFileManager(found, null, StandardCharsets.UTF_8)) {
      compiler.getTask(null, manager, found, options, null, manager.getJavaFileObjectsFromFiles(files)).call();
    }
    return found.getDiagnostics().stream().filter(one -> one.getKind() == Diagnostic.Kind.ERROR)
        .map(one -> one.getLineNumber() + ": " + one.getMessage(null).replaceAll("\\s+", " ")).collect(Collectors.toList());
  }

  private void take(Path file) throws Exception {
    Matcher type = PUBLIC.matcher(new String(Files.readAllBytes(file), StandardCharsets.ISO_8859_1));
    String name = type.find() ? type.group(1) + ".java" : file.getFileName().toString();
    Path copy = scratch.resolve("copy").resolve(name);
    Path classes = scratch.resolve("classes");
    Files.createDirectories(copy.getParent());
    Files.copy(file, copy, StandardCopyOption.REPLACE_EXISTING);
    if (!errors(Collections.singletonList(copy.toFile()), classes).isEmpty()) {
      return;
    }
    compiled++;
    for (String infer : Arrays.asList("private", "package")) {
      Files.copy(file, copy, StandardCopyOption.REPLACE_EXISTING);
      Process process = new ProcessBuilder(annotator, "--infer", infer, "--imports", "--write", name)
          .directory(copy.getParent().toFile()).redirectErrorStream(true).redirectOutput(scratch.resolve("output").toFile()).start();
      int status = process.waitFor();
      if (status != 0) {
        without++;
      } else if (Arrays.equals(Files.readAllBytes(file), Files.readAllBytes(copy))) {
        unchanged++;
      } else {
        changed++;
        List<String> errors = errors(Collections.singletonList(copy.toFile()), classes);
        if (!errors.isEmpty()) {
          refused++;
          System.out.println(file.getFileName() + ", " + infer + ": " + errors.get(0));
        }
      }
    }
    Files.delete(copy);
  }

  private int finish() {
    System.out.println(compiled + " files compile alone; of their texts " + changed + " changed, " + unchanged + " didn't, and "
        + without + " weren't written; " + refused + " of those that changed don't compile");
    return refused == 0 && changed > 0 ? 0 : 1;
  }
}
