#!/bin/sh
# Tries that plain Rust is the sources but for the cuts that it lists: it translates the crates (plain_rust.sh), makes the
# sources again from what was written and from its list of cuts, compares them byte by byte, judges each cut by its rule, and
# has lies refused (plain/cuts.py). It needs Python 3.
set -eu
unset CDPATH
# What `pwd` prints ends before the point, so that a line feed at a path's end isn't lost.
top=$(cd "$(dirname "$0")/.." && pwd && echo .)
top=${top%??}
if ! command -v python3 > /dev/null; then
    echo "left out: the cuts of plain Rust, since there is no python3"
    exit 0
fi
room=$(mktemp -d)
trap 'rm -rf "$room"' EXIT
trap 'exit 1' HUP INT TERM
sh "$top/scripts/plain_rust.sh" "$room/out" > "$room/log" || { cat "$room/log"; exit 1; }
python3 "$top/plain/cuts.py" "$top" "$room/out"
