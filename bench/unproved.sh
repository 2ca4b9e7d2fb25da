#!/usr/bin/env bash
# Builds a program of crates/ without a proof, to profile it while its libraries change: some four minutes in place of forty.
# Usage: bench/unproved.sh CRATE OUT
#   CRATE  a program of crates/, such as nullcheck
#   OUT    the file that it is written to
# It takes the LLVM module that `rt try` keeps in its folder while it runs, and compiles it as a release is compiled. The
# checks of memory that `rt try` asks for in the module stay, so times are some 1.5 times those of the proved program, and
# passes over lists (filled, dropped) weigh more than they do there: compare two such programs, or shares of one. `perf record`
# and `valgrind --tool=callgrind` name its functions. Nothing that it prints is proved: hand none out.
set -eu

if [ $# -ne 2 ]; then
  sed -n '/^# Usage/,/^#   OUT/s/^# //p' "${BASH_SOURCE[0]}" >&2
  exit 64
fi
crate=$1
out=$(realpath -m "$2")
kit=$(dirname "$(rt doc)")
folder=$(mktemp -d)
trap 'rm -rf "$folder"' EXIT
cd "$(dirname "${BASH_SOURCE[0]}")/../crates/$crate"

TMPDIR=$folder rt try --seconds 1 >"$folder/said" 2>&1 &
trying=$!
module=
while kill -0 "$trying" 2>/dev/null; do
  # The module of the whole program is the large one; it stands from when it is written until it is compiled.
  found=$(find "$folder" -name 'module.bc' -size +1M 2>/dev/null | head -n 1)
  if [ -n "$found" ]; then
    size=-1
    while [ "$size" != "$(stat -c %s "$found")" ]; do
      size=$(stat -c %s "$found")
      sleep 1
    done
    cp "$found" "$folder/whole.bc"
    module=$folder/whole.bc
    break
  fi
  sleep 0.2
done
kill "$trying" 2>/dev/null || true
wait "$trying" 2>/dev/null || true
if [ -z "$module" ]; then
  echo "no module of $crate was found; rt try said:" >&2
  tail -n 5 "$folder/said" >&2
  exit 1
fi
"$kit/toolchain/bin/clang" -O3 -c "$module" -o "$folder/program.o"
cc "$folder/program.o" "$kit/c/libos_c.a" "$kit/c/liblibc_c.a" -lpthread -lm -o "$out"
