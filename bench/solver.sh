#!/usr/bin/env bash
# Times the solver on generated systems: the drain on one thread, and 1, 2 and 4 workers.
# Usage: bench/solver.sh [COUNT [REPEATS [RUNS]]]
#   COUNT    bodies of each system (2000)
#   REPEATS  how often one run solves its system (200)
#   RUNS     runs of each, of which the best time counts (3)
# Prints a table with the best time of each in seconds and its ratio to the drain's. Ends with 1
# where a run fails or two ways find words with another number of bits.
set -eu
count=${1:-2000}
repeats=${2:-200}
runs=${3:-3}
root=$(cd "$(dirname "$(readlink -f "${BASH_SOURCE[0]}")")/.." && pwd)
crate="$root/crates/solver_bench"
program="$crate/out/solver_bench"

# Proves and builds the program, unless it is there and newer than each source file.
build() {
  if [ -x "$program" ] && [ -z "$(find "$root"/crates/*/src -name '*.rt' -newer "$program" | head -n 1)" ]; then
    return
  fi
  echo "solver.sh: proving and building the program; this takes some minutes" >&2
  local log
  log=$(mktemp)
  (cd "$crate" && rt run -- chain 200 2 1) >"$log" 2>&1 </dev/null || true
  if [ ! -x "$program" ]; then
    cat "$log" >&2
    rm -f "$log"
    echo "solver.sh: the program could not be built" >&2
    exit 1
  fi
  rm -f "$log"
}

# Sets `found` to what the program printed behind the colon, and `best` to the microseconds of the best run.
measure() {
  local shape=$1 workers=$2 run start end line
  best=
  for ((run = 0; run < runs; run++)); do
    start=${EPOCHREALTIME/[.,]/}
    line=$("$program" "$shape" "$count" "$workers" "$repeats") || {
      echo "solver.sh: $shape $count $workers $repeats ended with $?" >&2
      exit 1
    }
    end=${EPOCHREALTIME/[.,]/}
    found=${line#*: }
    if [ -z "$best" ] || ((end - start < best)); then
      best=$((end - start))
    fi
  done
}

# Prints thousandths as a number with three places.
thousandths() {
  printf '%d.%03d' $(($1 / 1000)) $(($1 % 1000))
}

build
echo "$count bodies, solved $repeats times a run; best of $runs runs"
printf '%-6s  %-9s  %8s  %8s  %s\n' shape way seconds ratio found
for shape in chain star ring; do
  for workers in 0 1 2 4; do
    measure "$shape" "$workers"
    case $workers in
      0) way=drain drain=$best expected=$found ;;
      1) way="1 worker" ;;
      *) way="$workers workers" ;;
    esac
    if [ "$found" != "$expected" ]; then
      echo "solver.sh: $shape: $way found $found, and the drain $expected" >&2
      exit 1
    fi
    printf '%-6s  %-9s  %8s  %8s  %s\n' "$shape" "$way" "$(thousandths $((best / 1000)))" "$(thousandths $((best * 1000 / drain)))" "$found"
  done
done
