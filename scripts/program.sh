#!/bin/sh
# Prints the path of the program that a script runs: program.sh [PROGRAM]. If none is named it is the first of these: the
# one that `rt ci` built here, that of the archive of a release in which this lies, `pciex` on the path. Fails if there is
# none, with status 2 for words that name no program: no word, more than one, an option.
unset CDPATH
here=$(dirname "$0")
case $#,${1:-} in
    0, | 1,[!-]*) ;;
    *)
        echo "usage: a script that runs the program takes one word at most, the program's path" >&2
        exit 2
        ;;
esac
program=${1:-$here/../crates/pciex/out/pciex}
if [ $# -eq 0 ] && [ ! -e "$program" ]; then
    program=$here/../bin/pciex
    [ -e "$program" ] || program=$(command -v pciex) || program=pciex
fi
if [ ! -f "$program" ] || [ ! -x "$program" ]; then
    echo "there is no program $program: rt ci builds it, or rt run in crates/pciex, or, without proofs, scripts/unproved.sh FILE" >&2
    exit 1
fi
realpath -- "$program"
