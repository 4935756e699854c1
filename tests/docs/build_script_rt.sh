#!/usr/bin/env bash
# What test_build_script.py has in place of rt: it notes its verb and runs the words of $during. As `rt ci` it proves all crates
# but $failing and makes a program of their sources. As `rt try` it makes that in $TMPDIR, and reads the last word's file.
kit=${0%/bin/rt} && echo "$1" >>"$kit/calls"
[ "$1" != version ] || exec cat "$kit/version"
eval "$during"
program=bsp_office/out/bsp_office
if [ "$1" = try ]; then
  cd ../.. && program=$TMPDIR/native/program
else
  for it in $(sed 's/:.*//' crates.txt); do
    printf '%s\n' "== $it" "fn $it::first: proved"
    [ "$it" != "$failing" ] || { printf '%s\n' "fn $it::second: no proof" "rt: $it NOT PROVED"; exec sleep 60; }
    echo "rt: $it proved"
  done
fi
cd crates && printf '%s\n' '#!/bin/sh' "made='$(echo $(cat bsp_office/*/* middle/*/* low/*/*))'" 'case $1 in made) echo "$made" ;;
  status) exit "$2" ;; *) pwd; printf "<%s>\n" "$@"; cat ;; esac' | install -D -m 755 /dev/stdin "$program"
[ "$1" != try ] || exec cat "${@: -1}"
