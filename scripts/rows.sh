#!/bin/sh
# Runs the worked rows of rows/ over the program: rows.sh [PROGRAM] [FILE..], that of program.sh if none is named, all files
# if none is. Each row is words, an input, what is printed and told, and a status (rows/README.md). Tells each run that goes
# otherwise.
unset CDPATH
if [ $# -gt 0 ]; then
    pciex=$(sh "$(dirname "$0")/program.sh" "$1") || exit
    shift
else
    pciex=$(sh "$(dirname "$0")/program.sh") || exit
fi
cd "$(dirname "$0")/.." || exit 1
. scripts/left_out.sh
has python3 "the worked rows" || exit 0
[ $# -gt 0 ] || set -- rows/*.rows
exec python3 scripts/rows.py "$pciex" "$@"
