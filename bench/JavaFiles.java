import java.io.File;
import java.io.IOException;
import java.lang.annotation.Annotation;
import java.lang.reflect.AnnotatedArrayType;
import java.lang.reflect.AnnotatedType;
import java.lang.reflect.Method;
import java.lang.reflect.Modifier;
import java.net.URL;
import java.net.URLClassLoader;
import java.nio.charset.StandardCharsets;
import java.nio.file.Files;
import java.nio.file.Path;
import java.util.ArrayList;
import java.util.Arrays;
import java.util.LinkedHashMap;
import java.util.List;
import java.util.Map;
import java.util.TreeSet;
import java.util.regex.Matcher;
import java.util.regex.Pattern;
import java.util.stream.Collectors;
import java.util.stream.Stream;
import javax.tools.Diagnostic;
import javax.tools.DiagnosticCollector;
import javax.tools.JavaCompiler;
import javax.tools.JavaFileObject;
import javax.tools.StandardJavaFileManager;
import javax.tools.ToolProvider;

/** Files of a folder, compiled as Java 8, with the six annotations as stubs. */
final class JavaFiles {
  private static final List<String> ANNOTATIONS =
      Arrays.asList(
          "Nullable", "NonNull", "MonotonicNonNull", "Initialized", "UnderInitialization", "UnknownInitialization");

  private static final List<String> DEFAULTS = Arrays.asList("NonNull", "Initialized");

  private static final Pattern PACKAGE = Pattern.compile("(?m)^\\s*package\\s+([\\w.]+)\\s*;");
  private static final Pattern IMPORT =
      Pattern.compile("(?m)^\\s*import\\s+(org\\.checkerframework[\\w.]*)\\.(\\w+|\\*)\\s*;");

  private static final Pattern PUBLIC =
      Pattern.compile("\\bpublic\\s+(?:(?:final|abstract)\\s+)*(?:class|interface)\\s+(\\w+)");

  private final Path data;
  private final Path scratch;
  private final Path stubs;
  private final JavaCompiler compiler = ToolProvider.getSystemJavaCompiler();
  private final Map<List<String>, Compiled> all = new LinkedHashMap<>();

  JavaFiles(Path data, Path scratch) throws IOException {
    this.data = data;
    this.scratch = scratch;
    this.stubs = scratch.resolve("stubs");
    makeStubs();
  }

  /** What the compiler made of some of the files. */
  final class Compiled {
    private final Path folder;

    /** The case's names of the files, by those under which they were compiled. */
    final Map<String, String> names = new LinkedHashMap<>();

    final List<String> errors;

    /** The classes that declare a main. */
    final List<String> mains = new ArrayList<>();

    /** Those of which the array of words and its elements have the qualifiers of a main that is run. */
    final List<String> startable = new ArrayList<>();

    private Compiled(Path folder, List<String> words) throws Exception {
      this.folder = folder;
      errors = compile(sourcesOf(words), folder);
      if (errors.isEmpty()) {
        findMains();
      }
    }

    /** The files, each copied under the name of its public type, where it has one. */
    private List<File> sourcesOf(List<String> words) throws IOException {
      List<File> files = new ArrayList<>();
      for (String word : words) {
        byte[] bytes = Files.readAllBytes(data.resolve(word));
        Matcher named = PUBLIC.matcher(new String(bytes, StandardCharsets.UTF_8));
        String name = named.find() ? named.group(1) + ".java" : word;
        Path copy = folder.resolve("sources" + files.size()).resolve(name);
        Files.createDirectories(copy.getParent());
        Files.write(copy, bytes);
        files.add(copy.toFile());
        names.put(name, word);
      }
      return files;
    }

    /** Loads the classes that the compiler made. */
    URLClassLoader loader() throws IOException {
      return new URLClassLoader(new URL[] {folder.toUri().toURL(), stubs.toUri().toURL()});
    }

    private void findMains() throws Exception {
      try (URLClassLoader loader = loader(); Stream<Path> files = Files.walk(folder)) {
        for (Path file : files.filter(one -> one.toString().endsWith(".class")).sorted().collect(Collectors.toList())) {
          String name = folder.relativize(file).toString().replaceAll("\\.class$", "").replace(File.separatorChar, '.');
          for (Method method : Class.forName(name, false, loader).getDeclaredMethods()) {
            if (isMain(method)) {
              mains.add(name);
            }
            if (isMain(method) && takesWords(method)) {
              startable.add(name);
            }
          }
        }
      }
    }

    JavaRun run(String main, List<String> words, int seconds) throws Exception {
      return JavaRun.of(Arrays.asList(folder, stubs), main, words, seconds);
    }
  }

  /** Whether each of the words is a file. */
  boolean areFiles(List<String> words) {
    return !words.isEmpty() && words.stream().allMatch(word -> Files.isRegularFile(data.resolve(word)));
  }

  Compiled compiled(List<String> words) throws Exception {
    Compiled known = all.get(words);
    if (known == null) {
      known = new Compiled(scratch.resolve("case" + all.size()), words);
      all.put(words, known);
    }
    return known;
  }

  private static boolean isMain(Method method) {
    int modifiers = method.getModifiers();
    return method.getName().equals("main") && Modifier.isPublic(modifiers) && Modifier.isStatic(modifiers)
        && Arrays.equals(method.getParameterTypes(), new Class<?>[] {String[].class})
        && method.getReturnType() == void.class;
  }

  private static boolean takesWords(Method main) {
    AnnotatedType array = main.getAnnotatedParameterTypes()[0];
    AnnotatedType element = ((AnnotatedArrayType) array).getAnnotatedGenericComponentType();
    return Stream.of(array, element).flatMap(type -> Arrays.stream(type.getAnnotations()))
        .map(Annotation::annotationType).allMatch(type -> DEFAULTS.contains(type.getSimpleName()));
  }

  /** Makes the annotations in the package without a name, in those of the files, and in those that they import. */
  private void makeStubs() throws IOException {
    TreeSet<String> names = new TreeSet<>(ANNOTATIONS);
    try (Stream<Path> files = Files.list(data)) {
      for (Path file : files.filter(path -> path.toString().endsWith(".java")).collect(Collectors.toList())) {
        names.addAll(annotationsOf(new String(Files.readAllBytes(file), StandardCharsets.UTF_8)));
      }
    }
    List<File> sources = new ArrayList<>();
    for (String name : names) {
      sources.add(makeStub(name).toFile());
    }
    if (!compile(sources, stubs).isEmpty()) {
      throw new IOException("the annotations don't compile");
    }
  }

  private static List<String> annotationsOf(String text) {
    List<String> names = new ArrayList<>();
    Matcher owns = PACKAGE.matcher(text);
    while (owns.find()) {
      ANNOTATIONS.forEach(name -> names.add(owns.group(1) + "." + name));
    }
    Matcher imports = IMPORT.matcher(text);
    while (imports.find()) {
      if (imports.group(2).equals("*")) {
        ANNOTATIONS.forEach(name -> names.add(imports.group(1) + "." + name));
      } else if (ANNOTATIONS.contains(imports.group(2))) {
        names.add(imports.group(1) + "." + imports.group(2));
      }
    }
    return names;
  }

  private Path makeStub(String name) throws IOException {
    int dot = name.lastIndexOf('.');
    Path source = scratch.resolve("annotations").resolve(name.replace('.', '/') + ".java");
    Files.createDirectories(source.getParent());
    String header = dot < 0 ? "" : "package " + name.substring(0, dot) + ";\n";
    String targets = Stream.of("TYPE_USE", "TYPE", "CONSTRUCTOR", "METHOD", "FIELD", "PARAMETER", "LOCAL_VARIABLE")
        .map(target -> "java.lang.annotation.ElementType." + target).collect(Collectors.joining(", "));
    String text = header + "@java.lang.annotation.Retention(java.lang.annotation.RetentionPolicy.RUNTIME)\n"
        + "@java.lang.annotation.Target({" + targets + "})\npublic @interface " + name.substring(dot + 1) + " { }\n";
    Files.write(source, text.getBytes(StandardCharsets.UTF_8));
    return source;
  }

  /** Compiles files into a folder, and gives the errors. */
  private List<String> compile(List<File> files, Path folder) throws IOException {
    Files.createDirectories(folder);
    DiagnosticCollector<JavaFileObject> found = new DiagnosticCollector<>();
    List<String> options = Arrays.asList("--release", "8", "-proc:none", "-nowarn", "-Xlint:none", "-encoding", "UTF-8",
        "-cp", stubs.toString(), "-sourcepath", scratch.resolve("none").toString(), "-d", folder.toString());
    try (StandardJavaFileManager manager = compiler.getStandardFileManager(found, null, StandardCharsets.UTF_8)) {
      compiler.getTask(null, manager, found, options, null, manager.getJavaFileObjectsFromFiles(files)).call();
    }
    return found.getDiagnostics().stream().filter(one -> one.getKind() == Diagnostic.Kind.ERROR)
        .map(JavaFiles::shown).collect(Collectors.toList());
  }

  private static String shown(Diagnostic<? extends JavaFileObject> error) {
    String place = "";
    if (error.getSource() != null) {
      place = error.getSource().getName().replaceAll("^.*[/\\\\]", "") + ":" + error.getLineNumber() + ": ";
    }
    return place + error.getMessage(null).replaceAll("\\s+", " ");
  }
}
