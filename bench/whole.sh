#!/usr/bin/env bash
# Times the whole check on generated programs, each at a size and at half of it, with javac beside it where it is on
# the PATH.
# Usage: bench/whole.sh PROGRAM [RUNS [SECONDS [DIVISOR]]]
#        bench/whole.sh --files FOLDER [DIVISOR]
#   PROGRAM  a built nullcheck: crates/nullcheck/out/nullcheck, as `rt ci` or bin/nullcheck leaves it; `none` times javac alone
#   RUNS     runs of each, of which the best time counts (1)
#   SECONDS  how long one run may take before it is stopped, which is shown as `over` (120)
#   DIVISOR  divides all sizes, for a first try (1)
#   --files  writes the programs into a folder, and times nothing
# Prints for each program its size, and for nullcheck with four workers (as where none are said) and with one, and for
# javac, the seconds and the peak MiB at half and at whole size, and the ratio of the times (2 is linear, 4 a square; of
# short runs it says nothing); then how the run of the whole ended, with its last line. The shapes:
#   classes     N unrelated classes with seven methods each
#   chain       N classes, each extending the one before
#   methods     one class with N methods
#   statements  one body with N statements
#   one name    N classes with one method of one name, all overriding that of one class
#   nested      N bodies of 150 nested blocks
#   files       N classes in 64 files, with calls between files
#   locals      one body with N locals, each set on two ways
#   overloads   one class whose methods of one name have N parameters together, no two as many
#   pairs       a chain of classes that all override one method, N overriding pairs
#   rows        N methods that each break a rule
#   bodies      N bodies of 48 statements in 64 files, whose classes call each other
# javac takes each as Java 8. What the programs need of Java stands in docs/LANGUAGE.md.
set -eu

usage() {
  sed -n '/^# Usage/,/--files FOLDER/s/^# //p' "${BASH_SOURCE[0]}" >&2
  exit 64
}

# The seven methods of a class of this number, whose field `next` may be null.
members() {
  awk -v k="$1" 'BEGIN {
    printf "  C%d next;\n  int size;\n", k
    print "  int one(int n) { size = size + n; return size; }"
    print "  int two(int n) { int m = one(n); if (m > n) { m = m - n; } return m; }"
    printf "  void three(C%d other) { if (other != null) { other.one(1); } }\n", k
    print "  boolean four() { return next != null && next.size > 0; }"
    print "  int five(int[] a) { int sum = 0; for (int x : a) { sum += x; } return sum; }"
    print "  String six(int n) { return \"n\" + (n + size); }"
    printf "  C%d seven() { C%d c = next; while (c != null && c.next != null) { c = c.next; } return this; }\n", k, k
  }'
}

# So many classes of seven methods in so many files of a folder; where they are linked, each but the first also calls
# the one before it, which stands in another file where the class is the first of its file. A class has at most 13
# positions with a qualifier, a linked one 15.
write_classes() {
  local folder=$1 count=$2 files=$3 linked=$4
  local template
  template=$(members 0)
  awk -v count="$count" -v files="$files" -v linked="$linked" -v folder="$folder" -v template="$template" 'BEGIN {
    gsub(/C0 next/, "@Nullable C0 next", template)
    gsub(/three\(C0 other/, "three(@Nullable C0 other", template)
    gsub(/C0 c = next/, "@Nullable C0 c = next", template)
    for (k = 0; k < count; k++) {
      text = template
      gsub(/C0/, "C" k, text)
      file = folder "/Part" int(k * files / count) ".java"
      printf "class C%d {\n%s\n%s}\n", k, text, calls(k) > file
    }
  }
  function calls(k) {
    return k == 0 || !linked ? "" : sprintf("  int back(C%d c) { return c.two(%d); }\n", k - 1, k % 100)
  }'
}

# Writes one shape at one size into a folder.
write_program() {
  local shape=$1 count=$2 folder=$3
  mkdir -p "$folder"
  case $shape in
    classes) write_classes "$folder" "$count" $(((count + 1023) / 1024)) 0 ;;
    files) write_classes "$folder" "$count" 64 1 ;;
    chain)
      awk -v n="$count" 'BEGIN {
        print "class C0 { int n; C0() { n = 0; } int get() { return n; } }"
        for (k = 1; k < n; k++) printf "class C%d extends C%d { C%d() { super(); n = %d; } }\n", k, k - 1, k, k
      }' >"$folder/Chain.java"
      ;;
    methods)
      awk -v n="$count" 'BEGIN {
        print "class C {"
        print "  int f0(int x) { return x; }"
        for (k = 1; k < n; k++) printf "  int f%d(int x) { return f%d(x) + 1; }\n", k, k - 1
        print "}"
      }' >"$folder/Methods.java"
      ;;
    statements)
      awk -v n="$count" 'BEGIN {
        print "class C {\n  int f(int x, @Nullable String s) {\n    int y = 0;"
        for (k = 0; k < n; k++) {
          if (k % 4 == 0) print "    y = x;"
          if (k % 4 == 1) print "    x++;"
          if (k % 4 == 2) print "    if (s != null) { y = s.length(); }"
          if (k % 4 == 3) print "    x = y;"
        }
        print "    return y;\n  }\n}"
      }' >"$folder/Statements.java"
      ;;
    "one name")
      awk -v n="$count" 'BEGIN {
        print "class C0 { int f(int x) { return x; } }"
        for (k = 1; k < n; k++) printf "class C%d extends C0 { int f(int x) { return x + %d; } }\n", k, k
      }' >"$folder/OneName.java"
      ;;
    nested)
      awk -v n="$count" 'BEGIN {
        open = ""; shut = ""
        for (i = 0; i < 150; i++) { open = open "{"; shut = shut "}" }
        print "class C {"
        for (k = 0; k < n; k++) printf "  int f%d(int x) { %s x++; %s return x; }\n", k, open, shut
        print "}"
      }' >"$folder/Nested.java"
      ;;
    bodies)
      awk -v n="$count" -v folder="$folder" 'BEGIN {
        for (k = 0; k < 64; k++) {
          file = folder "/Bodies" k ".java"
          printf "class C%d {\n  @Nullable C%d next;\n  int size;\n", k, (k + 1) % 64 > file
          for (m = 0; m < n / 64; m++) {
            printf "  int f%d(@Nullable C%d c, int x) {\n    int y = x;\n", m, (k + 1) % 64 > file
            for (i = 0; i < 12; i++) {
              print "    y = x + size;\n    x++;" > file
              printf "    if (c != null) { y = c.f%d(null, y); }\n", m > file
              print "    if (next != null && next.size > y) { x = y - next.size; }" > file
            }
            print "    return y;\n  }" > file
          }
          print "}" > file
          close(file)
        }
      }'
      ;;
    locals)
      awk -v n="$count" 'BEGIN {
        print "class C {\n  int f(boolean b, @Nullable String s) {\n    int sum = 0;"
        for (k = 0; k < n; k++) printf "    @Nullable String v%d = s;\n", k
        for (k = 0; k < n; k++) printf "    if (b) { v%d = \"a\"; }\n", k
        for (k = 0; k < n; k++) printf "    if (v%d != null) { sum = v%d.length(); }\n", k, k
        print "    return sum;\n  }\n}"
      }' >"$folder/Locals.java"
      ;;
    overloads)
      awk -v n="$count" 'BEGIN {
        print "class C {"
        for (k = 0; k * (k + 1) / 2 < n; k++) {
          printf "  int f("
          for (i = 0; i < k; i++) printf "%sint a%d", i ? ", " : "", i
          print ") { return 0; }"
        }
        print "}"
      }' >"$folder/Overloads.java"
      ;;
    pairs)
      awk -v n="$count" 'BEGIN {
        print "class C0 { int f(int x) { return x; } }"
        for (k = 1; k * (k + 1) / 2 < n; k++) printf "class C%d extends C%d { int f(int x) { return x + %d; } }\n", k, k - 1, k
      }' >"$folder/Pairs.java"
      ;;
    rows)
      awk -v n="$count" 'BEGIN {
        print "class C {"
        for (k = 0; k < n; k++) printf "  int f%d(@Nullable String s) { return s.length(); }\n", k
        print "}"
      }' >"$folder/Rows.java"
      ;;
  esac
}

# The annotation that the programs name; nullcheck knows it by its name.
write_annotation() {
  echo '@java.lang.annotation.Target(java.lang.annotation.ElementType.TYPE_USE) @interface Nullable { }' >"$1/Nullable.java"
}

# Runs a command in a folder; sets `micros` to its best time (empty where it was stopped), `kib` to its peak, `code`
# and `said`.
measure() {
  local folder=$1
  shift
  micros=
  kib=0
  local run start end
  for ((run = 0; run < runs; run++)); do
    start=${EPOCHREALTIME/[.,]/}
    code=0
    (cd "$folder" && timeout "$seconds" "$timer" -f %M -o "$scratch/peak" "$@") >"$scratch/said" 2>&1 || code=$?
    end=${EPOCHREALTIME/[.,]/}
    said=$(tail -n 1 "$scratch/said")
    if [ "$code" -eq 124 ]; then
      micros=
      return
    fi
    kib=$(tail -n 1 "$scratch/peak")
    if [ -z "$micros" ] || ((end - start < micros)); then
      micros=$((end - start))
    fi
  done
}

# Seconds with two places, or `over`.
shown() {
  if [ -z "$1" ]; then echo over; else printf '%d.%02d' $(($1 / 1000000)) $(($1 / 10000 % 100)); fi
}

ratio() {
  if [ -z "$1" ] || [ -z "$2" ]; then echo -; else awk -v a="$1" -v b="$2" 'BEGIN { printf "%.1f", b / a }'; fi
}

# A line for one tool: shape, size, tool, then seconds and MiB at half and whole size, the ratio, and how the whole
# ended.
line() {
  printf '%-11s %7d  %-9s %8s %6s %8s %6s %6s  %s\n' "$@"
}

# Times a tool at half and whole size. Words: shape, size, tool, then the command, which is given the files' names.
compare() {
  local shape=$1 size=$2 tool=$3
  shift 3
  local small=() large=() half half_kib ended
  mapfile -t small < <(cd "$scratch/half" && ls -- *.java)
  mapfile -t large < <(cd "$scratch/program" && ls -- *.java)
  if [ "$tool" = javac ]; then
    small+=("$scratch/Nullable.java")
    large+=("$scratch/Nullable.java")
  fi
  measure "$scratch/half" "$@" "${small[@]}"
  half=$micros
  half_kib=$kib
  measure "$scratch/program" "$@" "${large[@]}"
  ended="status $code"
  if [ "$tool" != javac ] || [ "$code" -ne 0 ]; then ended+=": $said"; fi
  line "$shape" "$size" "$tool" "$(shown "$half")" $((half_kib / 1024)) "$(shown "$micros")" $((kib / 1024)) \
    "$(ratio "$half" "$micros")" "$ended"
}

# Shapes and sizes: each within the limits of docs/LANGUAGE.md.
sizes=("classes 4096" "chain 4096" "methods 16384" "statements 8192" "one name 4096" "nested 2048" "files 4096"
  "locals 900" "overloads 65536" "pairs 524288" "rows 8192" "bodies 2048")

if { [ $# -eq 2 ] || [ $# -eq 3 ]; } && [ "$1" = --files ]; then
  mkdir -p "$2"
  write_annotation "$2"
  for entry in "${sizes[@]}"; do
    shape=${entry% *}
    write_program "$shape" $((${entry##* } / ${3:-1})) "$2/${shape// /-}"
  done
  exit 0
fi
[ $# -ge 1 ] && [ $# -le 4 ] || usage
program=$1
runs=${2:-1}
seconds=${3:-120}
divisor=${4:-1}
if [ "$program" != none ]; then
  [ -x "$program" ] || usage
  program=$(readlink -f "$program")
fi
timer=$(type -P time) || {
  echo "whole.sh: GNU time isn't on the PATH" >&2
  exit 1
}
scratch=$(mktemp -d)
trap 'rm -rf "$scratch"' EXIT
write_annotation "$scratch"
printf '%-11s %7s  %-9s %8s %6s %8s %6s %6s  %s\n' shape size tool 's half' MiB s MiB ratio 'end'
for entry in "${sizes[@]}"; do
  shape=${entry% *}
  size=$((${entry##* } / divisor))
  write_program "$shape" $((size / 2)) "$scratch/half"
  write_program "$shape" "$size" "$scratch/program"
  if [ "$program" != none ]; then
    compare "$shape" "$size" "4 workers" "$program" --workers 4
    compare "$shape" "$size" "1 worker" "$program" --workers 1
  fi
  if command -v javac >/dev/null; then
    compare "$shape" "$size" javac javac --release 8 -nowarn -Xlint:none -proc:none -d "$scratch/out"
  fi
  rm -rf "$scratch/half" "$scratch/program" "$scratch/out"
done
