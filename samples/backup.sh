#!/bin/sh
# Copies the book of an office that is running: backup.sh PID BOOK FOLDER [PROGRAM]
#
#   PID      the process of the office, as of `systemctl show --property MainPID --value bsp_office`
#   BOOK     the file of its --db
#   FOLDER   where the copies are kept: each is a folder named for its time in UTC, with the book's file and its log
#   PROGRAM  the built program, which audits the copy; without it, bsp_office
#
# The office is stopped while its two files are copied, so that the copy is of one moment, and goes on whatever happens here.
# Callers wait meanwhile. A copy gets its name after it passed the audit. The status is 0, or 1 and there is no copy. If this
# script itself is killed by SIGKILL, the office may still be stopped: `kill -CONT PID`.
set -eu
umask 077

if [ $# -lt 3 ] || [ $# -gt 4 ]; then
  echo "usage: backup.sh PID BOOK FOLDER [PROGRAM]" >&2
  exit 1
fi
office=$1 book=$2 folder=$3 program=${4:-bsp_office}
part=

fail() {
  echo "backup.sh: $*" >&2
  exit 1
}

# Whether the process has the book open.
has_book() {
  for file in "/proc/$office/fd/"*; do
    [ "$file" -ef "$book" ] && return 0
  done
  return 1
}

# Waits until the process is stopped: a call that it is in ends first.
await_stop() {
  while ! grep -q '^State:[[:space:]]*T' "/proc/$office/status"; do
    sleep 0.001
  done
}

end() {
  kill -CONT "$office" 2>/dev/null || true
  [ -z "$part" ] || rm -rf "$part"
}

has_book || fail "process $office has not opened $book"
mkdir -p "$folder"
trap end EXIT
trap 'exit 1' HUP INT TERM
part=$(mktemp -d "$folder/.part.XXXXXXXX")
copy=$part/$(basename "$book")

kill -STOP "$office"
await_stop
cp "$book" "$copy"
[ ! -e "$book-wal" ] || cp "$book-wal" "$copy-wal"
kill -CONT "$office"

"$program" audit "$copy" || fail "the copy of $book does not pass the audit"
sync "$part"/*
name=$folder/$(date -u +%Y%m%dT%H%M%S.%NZ)
mv "$part" "$name"
part=
sync "$folder"
