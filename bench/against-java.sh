#!/usr/bin/env bash
# Compares the stored answers of the Java cases (crates/nullcheck_cases) with a Java compiler and machine, where they
# are on the PATH: the files of each case that names files alone, or runs accepted files, are compiled as Java 8, with
# the six annotations made as stubs; each main of accepted or rejected ones is run, without words and with two; and
# what a case with `--run` answers is held against Java's run of the same main with the same words. It isn't part of
# the gate. A file is compiled under the name of its public type, which needn't be its own.
# Usage: bench/against-java.sh [SECONDS [PROGRAM [ANNOTATOR]]]
#   SECONDS  how many seconds of a processor one run may take before it is stopped (5)
#   PROGRAM  a built nullcheck, which then answers in place of what is stored: for the cases with `--run`, for runs of
#            all accepted cases that have one main, without words and with two, and for the files of examples/
#   ANNOTATOR  a built nullcheck_annotate: each file of the cases and examples that the compiler takes alone, with the annotations
#            in their own packages only, is written anew by `--imports --write`, by both choices of what is inferred, and the compiler
#            has to take it then, too
# A run answers as Java does where it printed the same text, and ended as Java's did: `done`, or by an exception of the
# same class, whose line is that of the first place that Java tells (Java tells no column). Behind `steps`, `deep` and
# `long` Java has to have printed the same text first. Files without a single main may have none in Java either: one
# that takes an array of non-null words, neither nullable nor under construction.
# The calls from outside of the table `callers` are made by Java, too: each has to print and to come to what is stored, and none may end in a
# NullPointerException of the files.
# Prints for each answer how many sets of files there are, how many compiled, and how their mains ended; how many runs
# were compared, by their ends; then what differs. Ends with 1 where a run differs, or where accepted files whose main
# ended in a NullPointerException are among them, and with 0 where no Java is found. Accepted files that don't compile
# are listed (docs/LANGUAGE.md says which); refused ones aren't of the subset, and needn't compile.
set -eu
seconds=${1:-5}
program=${2:-}
annotator=${3:-}
root=$(cd "$(dirname "$(readlink -f "${BASH_SOURCE[0]}")")/.." && pwd)
cases="$root/crates/nullcheck_cases"

if ! command -v javac >/dev/null || ! command -v java >/dev/null; then
  echo "against-java.sh: no javac and java on the PATH; nothing was compared"
  exit 0
fi
if [ -n "$program" ]; then
  program=$(readlink -f "$program")
fi

scratch=$(mktemp -d)
trap 'rm -rf "$scratch"' EXIT
mkdir "$scratch/driver"
javac -encoding UTF-8 -d "$scratch/driver" "$root"/bench/*.java

# Compares the files of a folder, by what is stored of them; all that is made goes into a scratch folder of this name.
compare() {
  mkdir "$scratch/$1"
  java -Dfile.encoding=UTF-8 -cp "$scratch/driver" AgainstJava "$2" "$3" "$scratch/$1" "$seconds" ${program:+"$program"}
}

status=0
compare cases "$cases/data" "$cases/stdout" || status=1
mkdir "$scratch/callers"
java -Dfile.encoding=UTF-8 -cp "$scratch/driver" Callers "$cases/data" callers "$cases/stdout" "$scratch/callers" || status=1
if [ -n "$program" ]; then
  for file in "$root"/examples/*.java; do
    name=${file##*/}
    echo "== $name"
    answer=0
    (cd "$root/examples" && "$program" "$name") || answer=$?
    echo "-- $answer"
  done >"$scratch/answers"
  compare examples "$root/examples" "$scratch/answers" || status=1
fi
if [ -n "$annotator" ]; then
  mkdir "$scratch/annotated"
  java -Dfile.encoding=UTF-8 -cp "$scratch/driver" Annotated "$scratch/annotated" "$(readlink -f "$annotator")" \
    "$cases/data" "$cases/data/annotated" "$root/examples" || status=1
fi
exit "$status"
