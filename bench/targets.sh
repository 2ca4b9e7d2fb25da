#!/usr/bin/env bash
# What the host's files come to where `nullcheck_annotate --write` can't replace them, or finds what another run left.
# Usage: bench/targets.sh ANNOTATOR
#   ANNOTATOR  a built nullcheck_annotate
# It wants flock and git, and as root it tries that owner and group are kept, too. It prints a line a trial, and ends with 1 where one failed.
set -u

if [ $# -ne 1 ]; then
  sed -n '/^# Usage/,/^#   ANNOTATOR/s/^# //p' "${BASH_SOURCE[0]}" >&2
  exit 64
fi
annotator=$(realpath "$1")
folder=$(mktemp -d)
trap 'rm -rf "$folder"' EXIT
cd "$folder" || exit 1
failed=0

# says NAME CONDITION..: whether the command of the trial holds
says() {
  local name=$1
  shift
  if "$@"; then echo "ok: $name"; else echo "FAILED: $name"; failed=1; fi
}

fresh() {
  rm -rf work
  mkdir work
  printf 'class A {\n  private String s = "s";\n}\n' >work/A.java
  cp work/A.java whole
}

# run FILE..: the status and standard error of --write
run() {
  status=0
  "$annotator" --write "$@" >out 2>err || status=$?
}

changed() { grep -q '@NonNull String s' "$1"; }
same() { cmp -s work/A.java whole; }
is() { [ "$1" = "$2" ]; }
none() { [ ! -e "$1" ] && [ ! -L "$1" ]; }

fresh
run work/A.java
says "a plain file is replaced" is "$status" 0
says "it has its words" changed work/A.java
says "nothing is left beside it" none work/A.java.nullcheck

# A pipe is read, and not replaced.
fresh
mkfifo work/pipe
timeout 5 bash -c 'cat work/A.java >work/pipe' &
run work/pipe
wait
says "a pipe is refused" is "$status" 6
says "it is a pipe yet" test -p work/pipe
says "the reason is said" grep -q 'no plain file' err
says "nothing is left beside the pipe" none work/pipe.nullcheck

# What an ended run left is taken over.
fresh
echo left >work/A.java.nullcheck
run work/A.java
says "what is left is taken over" is "$status" 0
says "the file is replaced then" changed work/A.java
says "what was left is gone" none work/A.java.nullcheck

# What a process holds isn't.
fresh
echo held >work/A.java.nullcheck
flock work/A.java.nullcheck sleep 5 &
holder=$!
for _ in 1 2 3 4 5 6 7 8 9 10; do
  flock -n work/A.java.nullcheck true || break
  sleep 0.1
done
run work/A.java
says "what another run holds is a fault" is "$status" 6
says "the file is as it was" same
says "what is held stays" grep -q held work/A.java.nullcheck
says "the other run is named" grep -q 'another run' err
kill "$holder" 2>/dev/null
wait "$holder" 2>/dev/null

# What can't be removed is named.
fresh
mkdir work/A.java.nullcheck
run work/A.java
says "a folder in the way is a fault" is "$status" 6
says "it is named" grep -q 'A.java.nullcheck stands in the way: remove it' err
says "the file is as it was, too" same

# Links.
fresh
ln -s A.java work/link.java
run work/link.java
says "a link's file is replaced" changed work/A.java
says "the link stays" test -L work/link.java

# Owner, group and rights.
fresh
chmod 640 work/A.java
if [ "$(id -u)" = 0 ]; then
  chown 1234:2345 work/A.java
fi
before=$(stat -c '%u %g %a' work/A.java)
run work/A.java
says "owner, group and rights stay" is "$(stat -c '%u %g %a' work/A.java)" "$before"

# Names in diffs.
fresh
(cd work && git init -q . && cp A.java $'t\ta"b\\c.java' && git add -A && git -c user.name=n -c user.email=e commit -qm all)
(cd work && "$annotator" $'.//t\ta"b\\c.java' >../diff)
says "a diff of a strange name applies" git -C work apply "$folder/diff"
says "to that file" changed $'work/t\ta"b\\c.java'

exit "$failed"
