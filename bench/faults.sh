#!/usr/bin/env bash
# Runs a built program with faults of the system outside it: calls that fail or give less than was asked for, files that
# aren't what their names promise, an output that can't be written, and small stacks. It isn't part of the gate.
# Usage: bench/faults.sh PROGRAM
#   PROGRAM  a built nullcheck: crates/nullcheck/out/nullcheck, as `rt ci` or bin/nullcheck leaves it
# bench/faults.c, compiled by `cc` and preloaded, has the k-th call of `open`, `read` or `write` fail or give one byte, for
# every k that the run makes. What has to come of it (docs/TESTED.md):
#   EINTR and one byte at a read or a write     change nothing
#   another error of `open` or `read`           5, nothing written
#   another error of `write`                    6, a prefix of what is written without it
# A run may take 20 seconds. Prints a line for each group with the number of its runs, and each run that ended otherwise with
# its words; ends with 1 where one did.
set -u
root=$(cd "$(dirname "$(readlink -f "${BASH_SOURCE[0]}")")/.." && pwd)
seconds=20

if [ $# -ne 1 ] || [ ! -x "$1" ]; then
  sed -n '/^# Usage/,/^#   PROGRAM/s/^# //p' "${BASH_SOURCE[0]}" >&2
  exit 64
fi
scratch=$(mktemp -d)
trap 'rm -rf "$scratch"' EXIT
cc -O2 -Wall -shared -fPIC -o "$scratch/faults.so" "$root/bench/faults.c" || exit 70
cp "$1" "$scratch/nullcheck"
chmod 755 "$scratch" "$scratch/nullcheck"
program=$scratch/nullcheck
mkdir "$scratch/files" "$scratch/other"
cd "$scratch/files" || exit 70

cp "$root"/examples/*.java .
cp "$root/crates/nullcheck_cases/data/Pile.java" .
printf 'class A extends B { }\nclass B extends A { }\n' >Circle.java
# A file of several reads; the class's end comes before the first of them does, so that it is whole wherever it is cut.
{
  echo 'class Long { }'
  for ((i = 0; i < 1500; i++)); do echo '// a line'; done
} >Long.java
{
  echo 'class Many {'
  for ((i = 0; i < 400; i++)); do echo "  int f$i(@Nullable String s) { return s.length(); }"; done
  echo '}'
} >Many.java

group=
count=0
wrong=0
begin() {
  finish
  group=$1
  count=0
}
finish() {
  [ -z "$group" ] || printf '%-64s %6d runs\n' "$group" "$count"
}

# Tells of a run that ended otherwise than it has to.
tell() {
  wrong=$((wrong + 1))
  echo "faults.sh: $group: $1"
}

# A reason stands on standard error behind the statuses from 5 on, and behind them alone; marks `status` where it doesn't.
heed() {
  case $status in
    5 | 6 | 7 | 8 | 64) if [ ! -s "$scratch/err" ]; then status="$status, without a reason"; fi ;;
    *) if [ -s "$scratch/err" ]; then status="$status, with a reason"; fi ;;
  esac
}

# Runs a command; sets `status` and `text`.
run() {
  status=0
  timeout -s KILL "$seconds" "$@" >"$scratch/out" 2>"$scratch/err" </dev/null || status=$?
  IFS= read -r -d '' text <"$scratch/out"
  heed
  count=$((count + 1))
}

# Runs a command that has to end so: a status, and what is written; `any` where that doesn't matter.
expect() {
  local want=$1 written=$2
  shift 2
  run "$@"
  if [ "$status" != "$want" ] || { [ "$written" != any ] && [ "$text" != "$written" ]; }; then
    tell "${*//$'\n'/ }: status $status (right $want), ${#text} bytes"
  fi
}

# Runs the program with calls that go otherwise. Words: the call, the first number, the last, each, how, then the program's words.
faulty() {
  local call=$1 from=$2 to=$3 each=$4 how=$5
  shift 5
  status=0
  FAULTY_CALL=$call FAULTY_FROM=$from FAULTY_TO=$to FAULTY_EACH=$each FAULTY_HOW=$how FAULTY_COUNT="$scratch/count" FAULTY_SECONDS=$seconds \
    LD_PRELOAD="$scratch/faults.so" "$program" "$@" >"$scratch/out" 2>"$scratch/err" </dev/null || status=$?
  IFS= read -r -d '' text <"$scratch/out"
  heed
  count=$((count + 1))
}

# Judges the last run: as it is without a fault (same), status 5 and nothing, or status 6 and a prefix.
judge() {
  local want=$1 told=$2
  case $want in
    same) [ "$status" = "$right" ] && [ "$text" = "$whole" ] ;;
    5) [ "$status" = 5 ] && [ -z "$text" ] ;;
    6) [ "$status" = 6 ] && [ "${whole:0:${#text}}" = "$text" ] ;;
  esac || tell "$told: status $status (right $want), ${#text} bytes (right ${#whole})"
}

# Tries each number of calls of a name with each fault, for these words.
try_calls() {
  local call=$1 calls k how
  shift
  truncate -s 8 "$scratch/count"
  faulty "$call" 0 0 1 none "$@"
  right=$status
  whole=$text
  calls=$(($(od -An -t u8 -N 8 "$scratch/count")))
  for ((k = 1; k <= calls; k++)); do
    for how in EINTR SHORT EIO EAGAIN ENOSPC EPIPE EMFILE; do
      case $call,$how in
        open,SHORT) continue ;;
        *,EINTR | *,SHORT) want=same ;;
        write,*) want=6 ;;
        *) want=5 ;;
      esac
      faulty "$call" "$k" "$k" 1 "$how" "$@"
      judge "$want" "$how at the call $k of $call: $*"
    done
  done
  # A call that is interrupted, and the next one, which isn't.
  faulty "$call" 1 999999999 2 EINTR "$@"
  judge same "EINTR at every second call of $call: $*"
  if [ "$call" != open ]; then
    faulty "$call" 1 999999999 1 SHORT "$@"
    judge same "one byte at each call of $call: $*"
  fi
}

commands=(
  "Pile.java"
  "--workers 1 Pile.java Orders.java"
  "--run --words=abc Pile.java"
  "Circle.java"
  "--report sarif Orders.java"
  "--report summary Long.java Many.java"
  "--gen 2"
  "--workers 0 Pile.java"
)
for call in open read write; do
  begin "each $call that fails"
  for command in "${commands[@]}"; do
    read -ra words <<<"$command"
    try_calls "$call" "${words[@]}"
  done
done

begin "a file that is cut or grows under way"
# Cut before the k-th read: what the reads gave is checked. Each is held against a file of these bytes.
size=$(stat -c %s Long.java)
for ((k = 1; k <= 4; k++)); do
  for left in 0 10 4096 8192; do
    cp Long.java Changing.java
    given=$(((k - 1) * 4096))
    if ((given < left)); then given=$left; fi
    if ((given > size)); then given=$size; fi
    head -c "$given" Long.java >"$scratch/other/Changing.java"
    FAULTY_FILE=Changing.java FAULTY_SIZE=$left faulty read "$k" "$k" 1 SHRINK Changing.java
    seen=$status,$text
    (cd "$scratch/other" && "$program" Changing.java) >"$scratch/out" 2>&1
    right=$?
    IFS= read -r -d '' whole <"$scratch/out"
    [ "$seen" = "$right,$whole" ] || tell "cut to $left before read $k: $seen (right $right,$whole)"
  done
done
whole=$'accepted\n' right=0
for ((k = 1; k <= 5; k++)); do
  cp Long.java Changing.java
  FAULTY_FILE=Changing.java FAULTY_SIZE=5000 faulty read "$k" "$k" 1 GROW Changing.java
  judge same "5000 bytes more before read $k"
done
# It grows with each read: it is too large then, and no more of it is read.
cp Long.java Changing.java
whole=$'Changing.java:1:1: B2\nrefused 1\n' right=2
FAULTY_FILE=Changing.java FAULTY_SIZE=8192 faulty read 1 999999999 1 GROW Changing.java
judge same "8192 bytes more before each read"

begin "names that hold no file"
expect 5 '' "$program" Missing.java
expect 5 '' "$program" Pile.java Missing.java
expect 5 '' "$program" .
expect 5 '' "$program" Pile.java "$scratch/files"
expect 5 '' "$program" Pile.java/x
expect 5 '' "$program" /dev/null/x
expect 5 '' "$program" "$(printf 'a%.0s' {1..300}).java"
expect 5 '' "$program" "$(printf 'a/%.0s' {1..3000}).java"
expect 5 '' "$program" ''
ln -s Round.java Round.java
expect 5 '' "$program" Round.java
ln -s Missing.java Dangling.java
expect 5 '' "$program" Dangling.java
ln -s Pile.java Link.java
expect 0 $'accepted\n' "$program" Link.java
cp Pile.java $'é\t😀.java'
expect 0 $'accepted\n' "$program" $'é\t😀.java'
expect 0 $'accepted\n' "$program" /dev/null
expect 2 $'/dev/zero:1:1: B2\nrefused 1\n' "$program" /dev/zero
if [ "$(id -u)" -eq 0 ] && command -v setpriv >/dev/null; then
  other=(setpriv --reuid=65534 --regid=65534 --clear-groups)
  chmod 755 .
  cp Pile.java Closed.java
  chmod 000 Closed.java
  expect 5 '' "${other[@]}" "$program" Closed.java
  chmod 644 Closed.java Pile.java
  expect 0 $'accepted\n' "${other[@]}" "$program" Closed.java
  mkdir Shut
  cp Pile.java Shut
  chmod 700 Shut
  expect 5 '' "${other[@]}" "$program" Shut/Pile.java
else
  cp Pile.java Closed.java
  chmod 000 Closed.java
  [ -r Closed.java ] || expect 5 '' "$program" Closed.java
fi

begin "words that aren't text"
for word in $'\xff.java' $'A\xc3.java' $'\xed\xa0\x80.java' $'\xf5\x80\x80\x80' $'\xc0\x80'; do
  expect 8 '' "$program" "$word"
  expect 8 '' "$program" Pile.java "$word"
  expect 8 '' "$program" --run --words "$word" Pile.java
  expect 8 '' "$program" --report "$word" Pile.java
done

begin "pipes"
mkfifo Pipe
cat Pile.java >Pipe &
expect 0 $'accepted\n' "$program" Pipe
wait
: >Pipe &
expect 0 $'accepted\n' "$program" Pipe
wait
{ for ((i = 0; i < 20; i++)); do echo "class P$i { }"; sleep 0.01; done; } >Pipe &
expect 0 $'accepted\n' "$program" Pipe
wait
# Whoever writes into the pipe is told when the program has what it takes.
(yes 'class A { }' >Pipe) 2>/dev/null &
expect 2 $'Pipe:1:1: B2\nrefused 1\n' "$program" Pipe
wait
# The same pipe named twice: what is left for the second is what was written behind the first's end.
status=0
text=$(cat Orders.java | "$program" /dev/stdin) || status=$?
count=$((count + 1))
[ "$status" = 1 ] || tell "standard input: status $status (right 1)"

begin "an output that can't be written"
# Runs the words with the output closed or full; a word says which.
closed() {
  local want=$1 how=$2
  shift 2
  status=0
  case $how in
    closed) timeout -s KILL "$seconds" "$program" "$@" >&- 2>"$scratch/err" || status=$? ;;
    "all closed") timeout -s KILL "$seconds" "$program" "$@" >&- 2>&- <&- || status=$? ;;
    full) timeout -s KILL "$seconds" "$program" "$@" >/dev/full 2>"$scratch/err" || status=$? ;;
    "read only") timeout -s KILL "$seconds" "$program" "$@" 1<Pile.java 2>"$scratch/err" || status=$? ;;
    "no reader")
      {
        timeout -s KILL "$seconds" "$program" "$@" 2>"$scratch/err"
        echo $? >"$scratch/status"
      } 3>&1 | { exec <&-; sleep 0.05; }
      status=$(cat "$scratch/status")
      ;;
  esac
  count=$((count + 1))
  [ "$status" = "$want" ] || tell "output $how: $*: status $status (right $want)"
}
for how in closed "all closed" full "read only"; do
  closed 6 "$how" Pile.java
  closed 6 "$how" Orders.java Circle.java
  closed 6 "$how" --report sarif Orders.java
  closed 6 "$how" --run --words=a~b Pile.java
  closed 6 "$how" --gen 1
  closed 6 "$how" --workers 0 Pile.java
  closed 5 "$how" Missing.java
done
# A reader that goes at once, and one that goes under way; more is written than a pipe holds.
{ for ((i = 0; i < 3000; i++)); do echo "class A$i extends U$i { }"; done; } >Rows.java
closed 6 "no reader" --report sarif Rows.java
status=$({ { "$program" --report sarif Rows.java; echo $? >&3; } | head -c 10 >/dev/null; } 3>&1)
count=$((count + 1))
[ "$status" = 6 ] || tell "a reader that goes under way: status $status (right 6)"

begin "few files that may be open"
# Three are open from the start; while a file is opened, the one before it is open still.
limited() {
  local want=$1 most=$2
  shift 2
  status=0
  (ulimit -n "$most" && exec "$program" "$@") >"$scratch/out" 2>&1 || status=$?
  count=$((count + 1))
  [ "$status" = "$want" ] || tell "$most files: $*: status $status (right $want)"
}
limited 0 4 Pile.java
limited 5 4 Pile.java Orders.java
limited 1 5 Pile.java Orders.java Long.java

begin "stacks from 64 KiB on"
repeat() { printf "%$2s" '' | sed "s/ /$1/g"; }
{ echo 'class A {'; echo "  int f(int x) { return $(repeat '(' 198)1$(repeat ')' 198); }"; echo '}'; } >Brackets.java
{ echo 'class A {'; echo "  void f() { $(repeat '{' 190)$(repeat '}' 190) }"; echo '}'; } >Blocks.java
{ echo 'class A {'; echo "  int f() { return 1$(repeat ' + 1' 480); }"; echo '}'; } >Sum.java
{ echo 'class A {'; echo "  void f(boolean b) { $(repeat 'if (b) f(b); else ' 480); }"; echo '}'; } >Chain.java
{ echo 'class A {'; echo "  void f(boolean b) { $(repeat 'while (b) ' 490); }"; echo '}'; } >Loops.java
{ echo 'class A {'; echo "  boolean f(boolean b) { return $(repeat '!' 490)b; }"; echo '}'; } >Not.java
{ echo 'class A {'; echo "  A f() { return $(repeat '(A) ' 490)this; }"; echo '}'; } >Casts.java
{ echo 'class A {'; echo "  int f(int x) { return $(repeat 'x = ' 490)1; }"; echo '}'; } >Assigned.java
{ echo 'class A {'; echo "  A f() { return this$(repeat '.f()' 490); }"; echo '}'; } >Calls.java
{ echo 'class A {'; echo "  int f(boolean b) { return $(repeat 'b ? 1 : ' 490)0; }"; echo '}'; } >Choices.java
for ((i = 0; i < 4000; i++)); do echo "class A$i extends A$((i + 1)) { }"; done >Classes.java
echo 'class A4000 { }' >>Classes.java
printf 'class A {\n  public static void main(String[] args) { System.out.println(f(4000)); }\n  static int f(int n) { return n == 0 ? 0 : f(n - 1) + 1; }\n}\n' >Recursive.java
least=65536
# Runs the words with so large a stack; what is nested deep may end by a signal below 2 MiB.
stacked() {
  local kib=$1 deep=$2 list
  read -ra list <<<"$3"
  # The environment and the words stand on the stack, too.
  run env -i bash -c "ulimit -s $kib && exec \"\$@\"" - "$program" "${list[@]}"
  if [ "$status" = "$right" ] && [ "$text" = "$whole" ]; then
    if [ "$kib" != unlimited ] && ((kib < least)); then least=$kib; fi
  elif [ "$deep" = no ] || [ "$kib" = unlimited ] || ((kib >= 2048)) || [ "$status" != 139 ] || [ -n "$text" ]; then
    tell "a stack of $kib KiB: $3: status $status (right $right), ${#text} bytes (right ${#whole})"
  fi
}
# Runs the words with each stack.
stacks() {
  local deep=$1 kib list
  read -ra list <<<"$2"
  right=0
  "$program" "${list[@]}" >"$scratch/out" || right=$?
  IFS= read -r -d '' whole <"$scratch/out"
  least=65536
  for kib in unlimited 65536 16384 8192 4096 2048 1024 512 256 128 64; do
    stacked "$kib" "$deep" "$2" 2>/dev/null
  done
}
for words in Pile.java Orders.java "--workers 1 Outline.java" "--workers 16 Calculator.java" "--gen 500" Classes.java "--run Recursive.java" \
  "--report sarif Rows.java" Many.java; do
  stacks no "$words"
done
needed=
for file in Brackets Blocks Sum Chain Loops Not Casts Assigned Calls Choices; do
  for workers in 1 4; do
    stacks yes "--workers $workers $file.java"
    needed+=" $file $least"
  done
done
finish
group=
echo "KiB of stack that are enough for the deepest files, with one worker and with four:$needed"
finish
echo "$wrong ended otherwise"
[ "$wrong" -eq 0 ]
