import java.io.File;
import java.io.IOException;
import java.nio.charset.StandardCharsets;
import java.nio.file.Files;
import java.nio.file.Path;
import java.nio.file.Paths;
import java.time.Duration;
import java.util.ArrayList;
import java.util.Arrays;
import java.util.List;
import java.util.concurrent.TimeUnit;
import java.util.regex.Matcher;
import java.util.regex.Pattern;

/** A run of a main by the Java machine. */
final class JavaRun {
  private static final Pattern FAULT = Pattern.compile("(?m)^Exception in thread \"main\" ([\\w.]+)");
  private static final Pattern PLACE = Pattern.compile("(?m)^\\s+at [^\\n]*\\(([^():\\n]+):(\\d+)\\)");

  /** What went to the standard output. */
  final String printed;

  /** Whether it was stopped, as it took too long. */
  final boolean isStopped;

  /** The class of what was thrown; null where nothing was. */
  final String fault;

  /** Where it was thrown; null where nothing was, or Java doesn't tell. */
  final String file;

  final String line;

  private JavaRun(String printed, String said, boolean isStopped) {
    Matcher thrown = FAULT.matcher(said);
    Matcher at = PLACE.matcher(said);
    boolean isThrown = !isStopped && thrown.find();
    boolean isPlaced = isThrown && at.find();
    this.printed = printed;
    this.isStopped = isStopped;
    this.fault = isThrown ? thrown.group(1) : null;
    this.file = isPlaced ? at.group(1) : null;
    this.line = isPlaced ? at.group(2) : null;
  }

  boolean hasEnded() {
    return !isStopped && fault == null;
  }

  boolean isNullFault() {
    return "java.lang.NullPointerException".equals(fault);
  }

  /** Runs the main of a class that stands in these folders; what it writes goes to files of the first. */
  static JavaRun of(List<Path> folders, String main, List<String> words, int seconds) throws Exception {
    String path = String.join(File.pathSeparator, strings(folders));
    List<String> command = new ArrayList<>(Arrays.asList(
        Paths.get(System.getProperty("java.home"), "bin", "java").toString(), "-Xmx256m", "-XX:TieredStopAtLevel=1",
        "-Xshare:auto", "-Dfile.encoding=UTF-8", "-cp", path, main));
    command.addAll(words);
    Path printed = folders.get(0).resolve("printed");
    Path said = folders.get(0).resolve("said");
    ProcessBuilder builder = new ProcessBuilder(command).redirectOutput(printed.toFile()).redirectError(said.toFile());
    builder.environment().put("LC_ALL", "C.UTF-8");
    Process process = builder.start();
    boolean isStopped = !endsWithin(process, seconds);
    if (isStopped) {
      process.destroyForcibly().waitFor();
    }
    return new JavaRun(textOf(printed), textOf(said), isStopped);
  }

  /** Whether the process ends before it has taken so many seconds of a processor. */
  private static boolean endsWithin(Process process, int seconds) throws InterruptedException {
    long start = System.nanoTime();
    while (!process.waitFor(200, TimeUnit.MILLISECONDS)) {
      Duration elapsed = Duration.ofNanos(System.nanoTime() - start);
      if (process.info().totalCpuDuration().orElse(elapsed).getSeconds() >= seconds) {
        return false;
      }
    }
    return true;
  }

  private static List<String> strings(List<Path> folders) {
    List<String> strings = new ArrayList<>();
    folders.forEach(folder -> strings.add(folder.toString()));
    return strings;
  }

  private static String textOf(Path file) throws IOException {
    return new String(Files.readAllBytes(file), StandardCharsets.UTF_8);
  }
}
