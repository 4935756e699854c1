# Sourced by the scripts that measure the library: a program over its crates, in a workspace of its own. Sets
# here, the script's folder, top, the repository, and work, a folder that is removed at the end.
set -eu
here=$(cd "$(dirname "$0")" && pwd)
top=$(cd "$here/../.." && pwd)
work=$(mktemp -d)
trap 'rm -rf "$work"' EXIT

# below CRATE...: these crates and all of the repository below them, each once
below() {
  awk -F: -v wanted="$*" '
    /^[a-z]/ { split($1, words, " "); stands_on[words[1]] = $2 }
    function visit(crate, parts, count, i) {
        if (!(crate in stands_on) || crate in seen) return
        seen[crate] = 1
        count = split(stands_on[crate], parts, " ")
        for (i = 1; i <= count; i++) visit(parts[i])
        print crate
    }
    END { count = split(wanted, names, " "); for (i = 1; i <= count; i++) visit(names[i]) }' "$top/crates.txt"
}

# workspace PROGRAM CRATE...: the crates that a program uses, those below them, and the folder of the program
workspace() {
  local program=$1 crate
  shift
  mkdir -p "$work/space/crates/$program/src"
  for crate in $(below "$@"); do
    cp -a "$top/crates/$crate" "$work/space/crates/"
    grep "^$crate:" "$top/crates.txt" >>"$work/space/crates.txt"
  done
  echo "$program: $*" >>"$work/space/crates.txt"
  (cd "$work/space" && git init -q .)
}

# source_file PROGRAM NAME: a file of the program, from standard input
source_file() { cat >"$work/space/crates/$1/src/$2"; }

# build PROGRAM: builds it, and sets program to its path. It is run once in the place where it is built, where it may
# find no input and say so.
build() {
  program="$work/space/crates/$1/out/$1"
  (cd "$work/space/crates/$1" && rt run </dev/null) >"$work/built.log" 2>&1 || [ -x "$program" ] || {
    tail -n 30 "$work/built.log"
    exit 1
  }
}
