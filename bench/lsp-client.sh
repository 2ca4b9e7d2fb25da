#!/usr/bin/env bash
# Has Neovim (0.7 or later) as a client of nullcheck_lsp: it opens a file, waits for diagnostics of it and of a file that it doesn't open,
# edits, sees them go and come, and stops the server. Each thing that is seen is a line; the status is 0 where all of them were.
# Usage: bench/lsp-client.sh PROGRAM
#   PROGRAM  a built nullcheck_lsp, such as crates/nullcheck_lsp/out/nullcheck_lsp
set -eu

if [ $# -ne 1 ]; then
  sed -n '/^# Usage/,/^#   PROGRAM/s/^# //p' "${BASH_SOURCE[0]}" >&2
  exit 64
fi
program=$(realpath "$1")
here=$(cd "$(dirname "${BASH_SOURCE[0]}")" && pwd)
folder=$(mktemp -d)
trap 'rm -rf "$folder"' EXIT
mkdir "$folder/home" "$folder/work"
cat >"$folder/work/A.java" <<'JAVA'
class A {
  static @Nullable String find() { return null; }
  static int use() {
    String s = null;
    return s.length();
  }
}
JAVA
cat >"$folder/work/B.java" <<'JAVA'
class B {
  static int use() { return A.find().length(); }
}
JAVA
export HOME=$folder/home XDG_STATE_HOME=$folder/home XDG_DATA_HOME=$folder/home XDG_CACHE_HOME=$folder/home
export NULLCHECK_LSP=$program NULLCHECK_FOLDER=$folder/work
exec_status=0
timeout 300 nvim --headless -u NONE -n -c "luafile $here/lsp-client.lua" </dev/null || exec_status=$?
exit "$exec_status"
