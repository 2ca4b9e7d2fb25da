#!/usr/bin/env bash
# Runs a built program with each of its requests for memory refused, one run a number, and then with all of them from
# that number on. It isn't part of the gate.
# Usage: bench/memory.sh PROGRAM [CASE..]
#   PROGRAM  a built nullcheck: crates/nullcheck/out/nullcheck, as `rt ci` or bin/nullcheck leaves it
#   CASE     runs the cases of these numbers alone; `list` lists them
# bench/memory.c, compiled by `cc` and preloaded, counts what is asked of malloc, calloc, realloc, posix_memalign and
# its like, mmap and mremap, and the threads that are started, and refuses. The cases: a row of inference and a stack as it is
# usually written, with and without its run, the files of examples/, refused files of each phase, each reporter, a made
# program, a run that prints, one that ends by an exception and one that is stopped, a missing file and the usage line.
# Each case has 1 and 4 workers, if its words don't say how many.
# A run has to end as without a refusal, with the same bytes and status, or with 7 and nothing written; with `--run` also
# with 7 behind a prefix of what is written without a refusal (want of memory may come on the way). It may take 20
# seconds. Prints a line for each case: how many requests it makes, how many numbers were tried, how many runs ended with
# 7, and how many as without a refusal. Ends with 1 where a run ended otherwise, each of which is told with its command.
set -u
root=$(cd "$(dirname "$(readlink -f "${BASH_SOURCE[0]}")")/.." && pwd)
seconds=20

usage() {
  sed -n '/^# Usage/,/^#   CASE/s/^# //p' "${BASH_SOURCE[0]}" >&2
  exit 64
}

[ $# -ge 1 ] && [ -x "$1" ] || usage
program=$(readlink -f "$1")
shift
scratch=$(mktemp -d)
trap 'rm -rf "$scratch"' EXIT
cc -O2 -Wall -shared -fPIC -o "$scratch/memory.so" "$root/bench/memory.c" || exit 70
mkdir "$scratch/files"
cp "$root"/examples/*.java "$scratch/files"
cd "$scratch/files" || exit 70

# Files of which a check comes to each of its ends.
cat >R.java <<'END'
class R {
  private void f(String s) { g(s); }
  private void g(String s) { s.length(); h(s); }
  private void h(String s) { f(s); }
  void go() { f("a"); h(null); }
}
END
cat >Pile.java <<'END'
package demo;
import org.checkerframework.checker.nullness.qual.Nullable;
public class Stack {
  private @Nullable Cell top;
  private int size;
  public void push(String text) {
    top = new Cell(text, top);
    size++;
  }
  public @Nullable String pop() {
    Cell c = top;
    if (c == null) return null;
    top = c.below;
    size--;
    return c.text;
  }
  public static void main(String[] args) {
    Stack s = new Stack();
    for (String a : args) s.push(a);
    String t = s.pop();
    while (t != null) {
      System.out.println(t);
      t = s.pop();
    }
  }
}
class Cell {
  final String text;
  final @Nullable Cell below;
  Cell(String text, @Nullable Cell below) { this.text = text; this.below = below; }
}
END
printf 'class A { } // \\u0041\n' >Lexical.java
printf 'class A {\n  void f() {\n    int x = 1;\n    x = x +\n' >Syntax.java
printf 'class A extends B { }\nclass B extends A { }\n' >Circle.java
printf 'class A {\n  void f() { int x; x = x + y; z.f(); }\n}\n' >Names.java
printf 'class A {\n  void f() { int x = "a"; boolean b = 1; }\n}\n' >Types.java
printf 'class Loop {\n  public static void main(String[] args) {\n    int i = 0;\n    while (true) { i = i + 1; System.out.println("n" + i); }\n  }\n}\n' >Loop.java
printf 'class Fault {\n  public static void main(String[] args) {\n    System.out.println("a");\n    int[] a = new int[2];\n    a[2] = 1;\n  }\n}\n' >Fault.java
printf 'class Made {\n  public static void main(String[] args) {\n    String[] a = new String[] { "x", "y" };\n    int[] b = new int[40];\n    System.out.println(a[1] + b.length + f(40));\n  }\n  static int f(int n) { return n == 0 ? 0 : f(n - 1) + 1; }\n}\n' >Made.java

cases=(
  "R.java"
  "Pile.java"
  "--run --words=a~b~c Pile.java"
)
for file in "$root"/examples/*.java; do
  cases+=("${file##*/}")
done
cases+=(
  "Stack.java Twice.java Later.java Greeting.java"
  "Lexical.java"
  "Syntax.java Lexical.java"
  "Circle.java"
  "Names.java"
  "Types.java"
  "R.java R.java"
  "--report tabbed Orders.java"
  "--report long Orders.java"
  "--report causes Orders.java"
  "--report summary Orders.java"
  "--report github Orders.java"
  "--report checkstyle Orders.java"
  "--report sarif Orders.java"
  "--gen 3"
  "--run --words=x~4~*~y~- Calculator.java"
  "--run --steps 2000 Loop.java"
  "--run Fault.java"
  "--run Made.java"
  "--run R.java"
  "Missing.java"
  "--workers 0 R.java"
  "--report none R.java"
)

if [ "${1:-}" = list ]; then
  for number in "${!cases[@]}"; do
    echo "$number  ${cases[number]}"
  done
  exit 0
fi
chosen=("$@")
[ $# -gt 0 ] || chosen=("${!cases[@]}")

# Splits a case into words; a `~` stands for a space.
words_of() {
  local word
  words=()
  set -f
  for word in $1; do
    words+=("${word//\~/ }")
  done
  set +f
}

# Runs the words with the requests from one number to another refused; sets `status` and `text`.
run() {
  status=0
  REFUSED_SECONDS=$seconds REFUSED_COUNT="$scratch/count" REFUSED_FROM=$1 REFUSED_TO=$2 LD_PRELOAD="$scratch/memory.so" \
    "$program" "${words[@]}" >"$scratch/out" 2>"$scratch/err" </dev/null || status=$?
  IFS= read -r -d '' text <"$scratch/out"
  # Behind 7 stands one line on standard error; of what is said behind others only that something is said counts.
  if [ -s "$scratch/err" ] && { [ "$status" != 7 ] || [ "$(<"$scratch/err")" != "nullcheck: no memory was found" ]; }; then
    status="$status with an error's text"
  fi
}

# Sets `requests` to the number of those of the last run.
read_count() {
  requests=$(od -An -t u8 -N 8 "$scratch/count")
  requests=$((requests))
}

# Judges the last run, in which something may have been refused.
judge() {
  tried=$((tried + 1))
  if [ "$status" = "$right" ] && [ "$text" = "$whole" ]; then
    same=$((same + 1))
  elif [ "$status" = 7 ] && [ -z "$text" ]; then
    empty=$((empty + 1))
  elif [ "$status" = 7 ] && [ "$runs" = yes ] && [ "${whole:0:${#text}}" = "$text" ]; then
    cut=$((cut + 1))
  else
    wrong=$((wrong + 1))
    echo "memory.sh: ${words[*]}: requests from $1 to $2 refused: status $status (right $right), ${#text} bytes (right ${#whole})"
    if ((wrong > 20)); then
      echo "memory.sh: too many others of this case; it is left"
      return 1
    fi
  fi
}

# Tries one case.
try() {
  local most=999999999 number n last workers=$1
  words_of "$2"
  [ -z "$workers" ] || words=(--workers "$workers" "${words[@]}")
  runs=no
  case " $2" in *" --run "*) runs=yes ;; esac
  truncate -s 8 "$scratch/count"
  run 0 0
  right=$status
  whole=$text
  read_count
  last=$requests
  # Where there are more workers, no two runs make the same number of requests.
  for ((number = 0; number < 8; number++)); do
    run 0 0
    read_count
    if ((requests > last)); then last=$requests; fi
    if [ "$status" != "$right" ] || [ "$text" != "$whole" ]; then
      echo "memory.sh: ${words[*]}: two runs without a refusal differ"
      wrong=$((wrong + 1))
    fi
  done
  tried=0 same=0 empty=0 cut=0
  for ((n = 1; n <= last; n++)); do
    run "$n" "$n"
    judge "$n" "$n" || break
    run "$n" "$most"
    judge "$n" "$most" || break
  done
  printf '%-72s %3s %8d %8d %8d %8d %8d\n' "$2" "$right" "$last" "$tried" "$empty" "$cut" "$same"
  numbers=$((numbers + last))
  all=$((all + tried))
  others=$((others + wrong))
}

numbers=0 all=0 others=0
printf '%-72s %3s %8s %8s %8s %8s %8s\n' 'words' '' requests runs '7' '7, cut' same
for number in "${chosen[@]}"; do
  wrong=0
  case " ${cases[number]}" in
    *" --workers "*) try "" "${cases[number]}" ;;
    *)
      try 1 "${cases[number]}"
      wrong=0
      try 4 "${cases[number]}"
      ;;
  esac
done
echo "$numbers numbers in $all runs; $others ended otherwise"
[ "$others" -eq 0 ]
