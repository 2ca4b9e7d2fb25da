import java.io.ByteArrayOutputStream;
import java.io.PrintStream;
import java.lang.reflect.Constructor;
import java.lang.reflect.InvocationTargetException;
import java.lang.reflect.Method;
import java.lang.reflect.Modifier;
import java.net.URLClassLoader;
import java.nio.charset.StandardCharsets;
import java.nio.file.Files;
import java.nio.file.Path;
import java.nio.file.Paths;
import java.util.ArrayList;
import java.util.Arrays;
import java.util.HashMap;
import java.util.List;
import java.util.Map;

/**
 * Makes the calls of a table of calls from outside by Java, and compares what each prints and comes to with what is stored, but for the places of
 * objects. Ends with 1 where one differs, or ends in a NullPointerException with a frame of the files on top.
 */
final class Callers {
  private final JavaFiles files;
  private URLClassLoader loader;
  private final Map<String, Object> held = new HashMap<>();
  private int calls;
  private int differ;

  private Callers(Path data, Path scratch) throws Exception {
    files = new JavaFiles(data, scratch);
  }

  /** DATA TABLE STDOUT SCRATCH */
  public static void main(String[] args) throws Exception {
    Path data = Paths.get(args[0]);
    Callers callers = new Callers(data, Paths.get(args[3]));
    List<String> table = Files.readAllLines(data.resolve(args[1]), StandardCharsets.UTF_8);
    List<String> answers = answersOf(Paths.get(args[2]), table);
    for (int i = 0; i < table.size(); i++) {
      callers.take(table.get(i).trim().split("\\s+"), table.get(i), answers.get(i));
    }
    System.out.println("calls from outside: " + callers.calls + ", of which " + callers.differ + " differ");
    System.exit(callers.differ == 0 ? 0 : 1);
  }

  /** Of each line of the table what is printed and what the call comes to. The table's lines stand in the stored output one behind the other. */
  private static List<String> answersOf(Path stored, List<String> table) throws Exception {
    List<String> answers = new ArrayList<>();
    boolean isInTable = false;
    for (String line : Files.readAllLines(stored, StandardCharsets.UTF_8)) {
      if (line.startsWith("== ")) {
        isInTable = answers.size() < table.size() && line.substring(3).equals(table.get(answers.size()));
        if (isInTable) {
          answers.add("");
        }
      } else if (isInTable && !line.startsWith("  ") && !line.equals("-- so by trees")) {
        int last = answers.size() - 1;
        answers.set(last, answers.get(last) + line.replaceAll("^(-- done \\w+)@\\d+$", "$1") + "\n");
      }
    }
    return answers;
  }

  private void take(String[] words, String line, String answer) throws Exception {
    if (words[0].equals("files")) {
      held.clear();
      loader = files.compiled(Arrays.asList(words).subList(1, words.length)).loader();
      return;
    }
    ByteArrayOutputStream printed = new ByteArrayOutputStream();
    PrintStream own = System.out;
    System.setOut(new PrintStream(printed, true, "UTF-8"));
    String end;
    try {
      end = end(words);
    } finally {
      System.setOut(own);
    }
    String came = printed.toString("UTF-8") + "-- " + end + "\n";
    calls++;
    if (!came.equals(answer)) {
      differ++;
      System.out.println("differs: " + line + "\n" + came);
    }
  }

  /** What a call comes to. */
  private String end(String[] words) throws Exception {
    try {
      Object given = words[0].equals("new") ? made(words) : called(words);
      held.put(words[1], given);
      return given == Nothing.NOTHING ? "done" : "done " + shown(given);
    } catch (InvocationTargetException thrown) {
      Throwable cause = thrown.getCause();
      if (cause instanceof StackOverflowError) {
        return "deep";
      }
      boolean inFiles = cause.getStackTrace().length > 0 && isOfFiles(cause.getStackTrace()[0].getClassName());
      return cause.getClass().getSimpleName() + (cause instanceof NullPointerException && inFiles ? " in the files" : "");
    }
  }

  /** What a method without result gives. */
  private enum Nothing {
    NOTHING
  }

  private boolean isOfFiles(String name) {
    return loader.findResource(name.replace('.', '/') + ".class") != null;
  }

  private Object made(String[] words) throws Exception {
    Object[] args = values(words, 3);
    for (Constructor<?> one : loader.loadClass(words[2]).getDeclaredConstructors()) {
      if (one.getParameterCount() == args.length) {
        one.setAccessible(true);
        return one.newInstance(args);
      }
    }
    throw new NoSuchMethodException(words[2]);
  }

  private Object called(String[] words) throws Exception {
    boolean isStatic = words[0].equals("static");
    Object[] args = values(words, isStatic ? 4 : 5);
    for (Method one : loader.loadClass(words[2]).getDeclaredMethods()) {
      boolean fits = one.getParameterCount() == args.length && Modifier.isStatic(one.getModifiers()) == isStatic;
      if (one.getName().equals(words[3]) && fits && !one.isBridge()) {
        one.setAccessible(true);
        Object given = one.invoke(isStatic ? null : value(words[4]), args);
        return one.getReturnType() == void.class ? Nothing.NOTHING : given;
      }
    }
    throw new NoSuchMethodException(words[3]);
  }

  private Object[] values(String[] words, int from) {
    List<Object> values = new ArrayList<>();
    for (int i = from; i < words.length; i++) {
      values.add(value(words[i]));
    }
    return values.toArray();
  }

  private Object value(String word) {
    if (word.equals("null")) {
      return null;
    }
    if (word.equals("true") || word.equals("false")) {
      return Boolean.valueOf(word);
    }
    if (word.startsWith("'")) {
      return word.substring(1);
    }
    return word.matches("-?\\d+") ? Integer.valueOf(word) : held.get(word);
  }

  private static String shown(Object value) {
    if (value instanceof String) {
      return "'" + value;
    }
    if (value == null || value instanceof Integer || value instanceof Boolean) {
      return String.valueOf(value);
    }
    return value.getClass().isArray() ? "array" : value.getClass().getSimpleName();
  }
}
