import java.io.IOException;
import java.nio.charset.StandardCharsets;
import java.nio.file.Files;
import java.nio.file.Path;
import java.nio.file.Paths;
import java.util.ArrayList;
import java.util.Arrays;
import java.util.Collections;
import java.util.List;
import java.util.Map;
import java.util.Optional;
import java.util.TreeMap;
import java.util.stream.Collectors;

/** Compiles cases with the Java compiler and runs their mains; bench/against-java.sh says what is printed. */
public final class AgainstJava {
  private static final List<String> FEW = Arrays.asList("one", "two");

  /** What came of the files with one status. */
  private static final class Counts {
    int cases;
    int compiled;
    int mains;
    int ended;
    int nullFaults;
    int otherFaults;
    int stopped;
  }

  private final Path data;
  private final Path scratch;
  private final int seconds;
  private final Optional<Path> program;
  private final JavaFiles files;
  private final Map<Integer, Counts> counts = new TreeMap<>();
  private final Map<String, Integer> runs = new TreeMap<>();
  private final List<String> differences = new ArrayList<>();
  private int failures;

  private AgainstJava(Path data, Path scratch, int seconds, Optional<Path> program) throws IOException {
    this.data = data;
    this.scratch = scratch;
    this.seconds = seconds;
    this.program = program;
    this.files = new JavaFiles(data, scratch);
  }

  /**
   * Words: the folder of the cases, their stored outputs, a scratch folder, the seconds that a run may take, and the
   * program that answers for runs, if the stored outputs aren't to.
   */
  public static void main(String[] args) throws Exception {
    Optional<Path> program = args.length > 4 ? Optional.of(Paths.get(args[4])) : Optional.empty();
    AgainstJava against = new AgainstJava(Paths.get(args[0]), Paths.get(args[2]), Integer.parseInt(args[3]), program);
    against.check(StoredCase.read(Paths.get(args[1])));
    System.exit(against.failures == 0 ? 0 : 1);
  }

  private void check(List<StoredCase> cases) throws Exception {
    List<StoredCase> plain = cases.stream().filter(one -> one.isPlain() && files.areFiles(one.words()))
        .collect(Collectors.toList());
    List<StoredCase> checked = new ArrayList<>(plain);
    for (StoredCase one : cases) {
      if (one.isRun() && one.isPlain() && RunAnswer.of(one.text, one.status).isPresent()) {
        checkRun(one);
        if (checked.stream().noneMatch(other -> other.files().equals(one.files()))) {
          checked.add(new StoredCase(String.join(" ", one.files()), "", 0));
        }
      }
    }
    for (StoredCase one : checked) {
      checkFiles(one);
    }
    report(cases.size(), plain.size(), checked.size() - plain.size());
  }

  /** Compiles the files of a case, and runs each of their mains without words and with a few. */
  private void checkFiles(StoredCase one) throws Exception {
    Counts count = counts.computeIfAbsent(one.status, status -> new Counts());
    count.cases++;
    JavaFiles.Compiled compiled = files.compiled(one.files());
    if (!compiled.errors.isEmpty()) {
      if (one.status != 2) {
        differences.add(one.line + " is " + named(one.status) + ", and javac says: " + compiled.errors.get(0));
      }
      return;
    }
    count.compiled++;
    if (one.status != 2) {
      for (String main : compiled.mains) {
        count.mains++;
        runMain(one, count, compiled, main);
      }
    }
  }

  /** Runs a main without words and with two, and counts the worse outcome. */
  private void runMain(StoredCase one, Counts count, JavaFiles.Compiled compiled, String main) throws Exception {
    JavaRun bare = compiled.run(main, Collections.emptyList(), seconds);
    JavaRun other = compiled.run(main, FEW, seconds);
    if (one.status == 0 && program.isPresent() && compiled.startable.equals(Collections.singletonList(main))) {
      compareAnswer(one, compiled, Collections.emptyList(), bare);
      compareAnswer(one, compiled, FEW, other);
    }
    JavaRun worse = bare.hasEnded() || other.isNullFault() ? other : bare;
    if (worse.hasEnded()) {
      count.ended++;
    } else if (worse.isStopped) {
      count.stopped++;
    } else if (worse.isNullFault()) {
      count.nullFaults++;
    } else {
      count.otherFaults++;
    }
    if (one.status == 0 && worse.isNullFault()) {
      fails(one.line + " is accepted, and its main ends in a NullPointerException");
    }
  }

  /** Compares the program's run of files with Java's. */
  private void compareAnswer(StoredCase one, JavaFiles.Compiled compiled, List<String> words, JavaRun java)
      throws Exception {
    List<String> command = new ArrayList<>(Arrays.asList("--run", "--words=" + String.join(" ", words)));
    command.addAll(one.words());
    String shown = "--run --words=" + String.join("~", words) + " " + one.line;
    Optional<RunAnswer> answer = answered(command);
    if (answer.isPresent()) {
      compare(shown, answer.get(), compiled, java);
    } else {
      fails(shown + " isn't run, though the files have one main");
    }
  }

  /** Compares a case that is a run with Java's run of its one main with its words. */
  private void checkRun(StoredCase one) throws Exception {
    Optional<RunAnswer> answer = program.isPresent() ? answered(one.words()) : RunAnswer.of(one.text, one.status);
    JavaFiles.Compiled compiled = files.compiled(one.files());
    if (!answer.isPresent()) {
      fails(one.line + " isn't run");
    } else if (!compiled.errors.isEmpty()) {
      fails(one.line + " is run, and javac says: " + compiled.errors.get(0));
    } else if (answer.get().hasMain() != (compiled.startable.size() == 1)) {
      fails(one.line + " ends by " + answer.get().end + ", and its mains are " + compiled.startable);
    } else if (answer.get().hasMain()) {
      compare(one.line, answer.get(), compiled, compiled.run(compiled.startable.get(0), one.arguments(), seconds));
    } else {
      runs.merge(answer.get().kind(), 1, Integer::sum);
    }
  }

  private void compare(String line, RunAnswer answer, JavaFiles.Compiled compiled, JavaRun java) {
    runs.merge(answer.kind(), 1, Integer::sum);
    answer.difference(java, compiled.names).ifPresent(difference -> fails(line + " " + difference));
  }

  /** What the program answers to the words; none where it isn't what a run of accepted files answers. */
  private Optional<RunAnswer> answered(List<String> words) throws Exception {
    List<String> command = new ArrayList<>();
    command.add(program.get().toString());
    command.addAll(words);
    Path written = scratch.resolve("written");
    ProcessBuilder builder = new ProcessBuilder(command).directory(data.toFile()).redirectErrorStream(true)
        .redirectOutput(written.toFile());
    builder.environment().put("LC_ALL", "C.UTF-8");
    int status = builder.start().waitFor();
    return RunAnswer.of(new String(Files.readAllBytes(written), StandardCharsets.UTF_8), status);
  }

  private void fails(String difference) {
    failures++;
    differences.add(difference);
  }

  private static String named(int status) {
    switch (status) {
      case 0: return "accepted";
      case 1: return "rejected";
      case 2: return "refused";
      default: return "status " + status;
    }
  }

  private void report(int lines, int plain, int further) {
    System.out.println(lines + " cases, of which " + plain + " name files alone; runs name " + further
        + " further sets of files");
    System.out.printf("%-10s %6s %9s %6s %6s %12s %12s %8s%n", "answer", "cases", "compiled", "mains", "ended",
        "null faults", "other faults", "stopped");
    counts.forEach((status, count) -> System.out.printf("%-10s %6d %9d %6d %6d %12d %12d %8d%n", named(status),
        count.cases, count.compiled, count.mains, count.ended, count.nullFaults, count.otherFaults, count.stopped));
    int compared = runs.values().stream().mapToInt(Integer::intValue).sum();
    System.out.println(compared + " runs compared: " + runs);
    System.out.println(differences.size() + " differences, of which " + failures + " count");
    differences.forEach(difference -> System.out.println("  " + difference));
  }
}
