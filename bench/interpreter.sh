#!/usr/bin/env bash
# Times `nullcheck --run` on five loops (loops/: arithmetic, fields, calls, strings, arrays), beside Java's interpreter where there is one.
# Usage: bench/interpreter.sh PROGRAM [REPEATS]
#   PROGRAM  a built nullcheck
#   REPEATS  how many runs of each loop the least time is taken of (5)
# Times are seconds of processor, the start of the program included. Ends with 1 where a loop takes more than three times what `java -Xint`
# takes, or prints another text; without a Java it prints times alone.
set -eu

if [ $# -lt 1 ]; then
  sed -n '/^# Usage/,/^#   REPEATS/s/^# //p' "${BASH_SOURCE[0]}" >&2
  exit 64
fi
program=$(realpath "$1")
repeats=${2:-5}
cd "$(dirname "${BASH_SOURCE[0]}")/loops"
scratch=$(mktemp -d)
trap 'rm -rf "$scratch"' EXIT

# The least processor time of so many runs of a command, whose output goes into a file.
least() {
  local into=$1
  shift
  for _ in $(seq "$repeats"); do
    TIMEFORMAT='%U %S'
    { time "$@" >"$into"; } 2>&1 | tail -n 1
  done | awk '{ spent = $1 + $2; if (NR == 1 || spent < best) best = spent } END { printf "%.3f", best }'
}

has_java=
if command -v javac >/dev/null && command -v java >/dev/null; then
  has_java=yes
fi

status=0
for file in Arithmetic.java Fields.java Calls.java Strings.java Arrays.java; do
  name=${file%.java}
  own=$(least "$scratch/own" "$program" --run --steps 1000000000 "$file")
  if [ -z "$has_java" ]; then
    printf '%-10s %s s\n' "$name" "$own"
    continue
  fi
  javac -encoding UTF-8 -d "$scratch/$name" "$file"
  java=$(least "$scratch/java" java -Xint -cp "$scratch/$name" "$name")
  printf '%-10s %s s, java -Xint %s s: %s\n' "$name" "$own" "$java" "$(awk "BEGIN { printf \"%.2f\", $own / $java }")"
  if [ "$(awk "BEGIN { print ($own > 3 * $java) }")" = 1 ]; then
    status=1
  fi
  # Behind what the run prints stands the line of its end.
  if ! head -n "$(wc -l <"$scratch/java")" "$scratch/own" | cmp -s - "$scratch/java"; then
    echo "$name: another text than Java's"
    status=1
  fi
done
exit "$status"
