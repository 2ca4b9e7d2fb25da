import java.io.IOException;
import java.nio.charset.StandardCharsets;
import java.nio.file.Files;
import java.nio.file.Path;
import java.util.ArrayList;
import java.util.Arrays;
import java.util.List;
import java.util.regex.Matcher;
import java.util.regex.Pattern;
import java.util.stream.Collectors;

/** A command line of a table of cases, and what it answers. */
final class StoredCase {
  /** A case's last line: its status, behind what was written of an unfinished line. */
  private static final Pattern STATUS = Pattern.compile("-- (\\d+)$");

  /** A word that sets what lies around the command. */
  private static final Pattern AROUND = Pattern.compile("(read|write|most|room|times|spaces|meet|cuts|boxes|refused)=\\d+");

  /** A word by which the files' main is also run by its trees, or by single steps, beside the command. */
  private static final Pattern BESIDE = Pattern.compile("(fuel|ones)=\\d+");

  private static final List<String> VALUED = Arrays.asList("--workers", "--infer", "--report", "--steps", "--words", "--gen");

  private static final String WORDS = "--words";

  final String line;
  final String text;
  final int status;

  StoredCase(String line, String text, int status) {
    this.line = line;
    this.text = text;
    this.status = status;
  }

  /** The cases of a stored output: `== LINE`, what is written, and `-- STATUS`. */
  static List<StoredCase> read(Path output) throws IOException {
    List<StoredCase> cases = new ArrayList<>();
    String line = null;
    StringBuilder text = new StringBuilder();
    for (String written : Files.readAllLines(output, StandardCharsets.UTF_8)) {
      Matcher status = STATUS.matcher(written);
      if (written.startsWith("== ")) {
        line = written.substring(3);
        text.setLength(0);
      } else if (line != null && status.find()) {
        text.append(written, 0, status.start());
        cases.add(new StoredCase(line, text.toString(), Integer.parseInt(status.group(1))));
        line = null;
      } else {
        text.append(written).append('\n');
      }
    }
    return cases;
  }

  private List<String> pieces() {
    return line.trim().isEmpty() ? new ArrayList<>() : Arrays.asList(line.trim().split("\\s+"));
  }

  /** Whether nothing is set but the words of the command. */
  boolean isPlain() {
    return pieces().stream().noneMatch(piece -> AROUND.matcher(piece).matches());
  }

  /** The words of the command; in a table `~` stands for a space. */
  List<String> words() {
    return pieces().stream().filter(piece -> !AROUND.matcher(piece).matches() && !BESIDE.matcher(piece).matches())
        .map(piece -> piece.replace('~', ' ')).collect(Collectors.toList());
  }

  boolean isRun() {
    return words().contains("--run");
  }

  /** The names of files, each once. */
  List<String> files() {
    List<String> files = new ArrayList<>();
    boolean isValue = false;
    for (String word : words()) {
      if (!isValue && !word.startsWith("--") && !files.contains(word)) {
        files.add(word);
      }
      isValue = !isValue && VALUED.contains(word);
    }
    return files;
  }

  /** What main is given: the pieces between spaces of the text behind `--words`. */
  List<String> arguments() {
    String given = "";
    List<String> words = words();
    for (int i = 0; i < words.size(); i++) {
      if (words.get(i).startsWith(WORDS + "=")) {
        given = words.get(i).substring(WORDS.length() + 1);
      } else if (words.get(i).equals(WORDS) && i + 1 < words.size()) {
        given = words.get(i + 1);
      }
    }
    return Arrays.stream(given.split(" ")).filter(piece -> !piece.isEmpty()).collect(Collectors.toList());
  }
}
