import java.util.Map;
import java.util.Optional;
import java.util.regex.Matcher;
import java.util.regex.Pattern;

/** What a run of accepted files answered: the text printed, and how it ended. */
final class RunAnswer {
  private static final Pattern ENDED =
      Pattern.compile("(?:\\A|(?<=\\n))(done|steps|deep|long|no single main|fault (\\w+) (.*):(\\d+):\\d+)\\n\\z");

  /** The text in front of the last line. */
  final String printed;

  /** The last line. */
  final String end;

  private final String fault;
  private final String place;

  private RunAnswer(String printed, Matcher ended) {
    this.printed = printed;
    this.end = ended.group(1);
    this.fault = ended.group(2);
    this.place = ended.group(3) + ":" + ended.group(4);
  }

  /** None where the text is a report, a usage line, or what was written before a failure. */
  static Optional<RunAnswer> of(String text, int status) {
    Matcher ended = ENDED.matcher(text);
    if (!ended.find() || status != statusOf(ended.group(1))) {
      return Optional.empty();
    }
    return Optional.of(new RunAnswer(text.substring(0, ended.start()), ended));
  }

  private static int statusOf(String end) {
    switch (end) {
      case "done": return 0;
      case "no single main": return 2;
      case "steps": case "deep": case "long": return 4;
      default: return 3;
    }
  }

  boolean hasMain() {
    return !end.equals("no single main");
  }

  /** The first word of the last line. */
  String kind() {
    return hasMain() ? end.split(" ")[0] : end;
  }

  /** What differs from Java's run, given the case's names of the files that Java names; none where nothing does. */
  Optional<String> difference(JavaRun java, Map<String, String> names) {
    boolean isStopped = fault == null && !end.equals("done");
    if (isStopped || java.isStopped ? !isFront(java) : !printed.equals(java.printed)) {
      return told("prints " + shown(printed), "prints " + shown(java.printed));
    }
    String javaEnd = java.hasEnded() ? "done" : java.isStopped ? "no end in time" : javaFault(java, names);
    String own = fault == null ? "done" : fault + " at " + place;
    return isStopped || own.equals(javaEnd) ? Optional.empty() : told("ends by " + own, "by " + javaEnd);
  }

  /** Java prints what this run printed, and maybe more; where Java's run was stopped, too, it may be less. */
  private boolean isFront(JavaRun java) {
    return java.printed.startsWith(printed) || (java.isStopped && printed.startsWith(java.printed));
  }

  private static String javaFault(JavaRun java, Map<String, String> names) {
    String place = names.getOrDefault(java.file, java.file) + ":" + java.line;
    return java.fault.replaceFirst("^java\\.lang\\.", "") + " at " + place;
  }

  private static Optional<String> told(String own, String other) {
    return Optional.of(own + ", and Java's " + other);
  }

  private static String shown(String text) {
    return '"' + text.replace("\n", "\\n") + '"';
  }
}
