#!/usr/bin/env bash
# Times the whole program on generated files of one MiB, and on four of them.
# Usage: bench/parser.sh [RUNS]
#   RUNS  runs of each, of which the best time counts (3)
# Prints a table with the best time of each in seconds, the greatest memory in MiB, and the end of the output.
# Each file has at most 1,048,576 bytes; "half" has half of that, so that a time that grows with the square would show.
set -eu
runs=${1:-3}
root=$(cd "$(dirname "$(readlink -f "${BASH_SOURCE[0]}")")/.." && pwd)
program="$root/crates/nullcheck/out/nullcheck"
limit=1048576

# Has the program proved and built, where it isn't yet or a source is newer; on no words it ends with 64.
build() {
  local status=0
  "$root/bin/nullcheck" >/dev/null || status=$?
  if [ "$status" -ne 64 ]; then
    echo "parser.sh: the program could not be built" >&2
    exit 1
  fi
}

folder=$(mktemp -d)
trap 'rm -rf "$folder"' EXIT

# Repeats a text up to a number of bytes, without a part of it at the end.
repeat() {
  awk -v text="$1" -v size="$2" 'BEGIN { n = int(size / length(text)); for (i = 0; i < n; i++) printf "%s", text }'
}

member='  int f(boolean b, String[] a) { int x = 1; if (b) x = x + 2 * x; else { x++; } for (String s : a) g(s, x); return x; }
'
{ echo 'class A {'; repeat "$member" $((limit - 64)); echo '}'; } >"$folder/declarations.java"
{ echo 'class A {'; repeat "$member" $((limit / 2 - 64)); echo '}'; } >"$folder/half.java"
repeat '(' $limit >"$folder/parentheses.java"
repeat 'a' $limit >"$folder/identifier.java"
{ printf '/*'; repeat 'a' $((limit - 4)); printf '*/'; } >"$folder/comment.java"
block="  void f() { $(repeat '{' 190)$(repeat '}' 190) }
"
{ echo 'class A {'; repeat "$block" $((limit - 64)); echo '}'; } >"$folder/blocks.java"
sum="  int x = $(repeat '1 + ' 490)1;
"
{ echo 'class A {'; repeat "$sum" $((limit - 64)); echo '}'; } >"$folder/sums.java"
{ echo 'class A { void f() {'; repeat '1; f(' $((limit - 64)); } >"$folder/faults.java"
{ echo 'class A { void f(boolean b) {'; repeat 'if (b) f(b); else ' 8000; echo ';} }'; } >"$folder/chain.java"
for i in 1 2 3 4; do cp "$folder/declarations.java" "$folder/four$i.java"; done

# Sets `best` to the microseconds of the best run, `memory` to its KiB and `said` to the last line written.
measure() {
  best=
  memory=0
  local run start end
  for ((run = 0; run < runs; run++)); do
    start=${EPOCHREALTIME/[.,]/}
    { said=$(/usr/bin/env time -f %M -o "$folder/memory" "$program" "$@" | tail -n 1); } || true
    end=${EPOCHREALTIME/[.,]/}
    if [ -s "$folder/memory" ]; then memory=$(tail -n 1 "$folder/memory"); fi
    if [ -z "$best" ] || ((end - start < best)); then
      best=$((end - start))
    fi
  done
}

build
cd "$folder"
printf '%-14s  %9s  %8s  %8s  %s\n' file bytes seconds MiB 'last line'
for name in half declarations blocks sums chain parentheses identifier comment faults; do
  measure "$name.java"
  printf '%-14s  %9d  %4d.%03d  %8d  %s\n' "$name" "$(stat -c %s "$name.java")" $((best / 1000000)) $((best / 1000 % 1000)) $((memory / 1024)) "$said"
done
measure four1.java four2.java four3.java four4.java
printf '%-14s  %9d  %4d.%03d  %8d  %s\n' 'four files' $(($(stat -c %s four1.java) * 4)) $((best / 1000000)) $((best / 1000 % 1000)) $((memory / 1024)) "$said"
