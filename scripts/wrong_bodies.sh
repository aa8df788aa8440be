#!/bin/sh
# Tries the wrong bodies that stand outside the gate: wrong_bodies.sh [--share K/N] [CRATE..], all without a name. With --share
# it is the K-th of N machines: the crates are dealt out, the one with most lines and edits first, to whom has least. Each edit of
# crates/CRATE/wrong-bodies must be refused by the prover. They are tried on a copy of the tree by `rt ci CRATE..`, which proves
# only what no earlier run on this machine proved; with a kit whose `rt ci` takes no name, by `rt must-fail CRATE..`. The
# edits of crates/CRATE/must-fail are tried by the gate. The last line counts the edits.
set -eu
unset CDPATH
cd "$(dirname "$0")/.."
share=1/1
if [ "${1:-}" = --share ]; then
    share=${2:-}
    shift $(($# > 1 ? 2 : 1))
fi
case $share in
    [1-9]/[1-9] | [1-9]/[1-9][0-9] | [1-9][0-9]/[1-9][0-9]) ;;
    *) echo "usage: wrong_bodies.sh [--share K/N] [CRATE..], K from 1 to N" >&2; exit 2 ;;
esac

# dealt CRATE..: the crates of this share. A crate counts its lines, times its edits and two (its own check, and the seed).
dealt() {
    for crate in "$@"; do
        lines=$(find "crates/$crate" -path "crates/$crate/out" -prune -o \( -name '*.rt' -o -name '*.antt' \) -type f -exec cat {} + | wc -l)
        echo "$(((lines + 300) * (2 + $(ls "crates/$crate/wrong-bodies" | wc -l)))) $crate"
    done | sort -rn | awk -v share="$share" '
        BEGIN { split(share, part, "/"); for (i = 1; i <= part[2]; i++) load[i] = 0 }
        { least = 1; for (i = 2; i <= part[2]; i++) if (load[i] < load[least]) least = i
          load[least] += $1; if (least == part[1]) print $2 }'
}
# shellcheck disable=SC2046 # names of crates have no spaces
[ $# -gt 0 ] || set -- $(for folder in crates/*/wrong-bodies; do basename "${folder%/*}"; done)
for crate in "$@"; do
    case $crate in
        '' | -* | */* | .*) echo "usage: wrong_bodies.sh [--share K/N] [CRATE..]" >&2; exit 2 ;;
    esac
    [ -d "crates/$crate/wrong-bodies" ] || { echo "wrong_bodies.sh: no folder crates/$crate/wrong-bodies" >&2; exit 2; }
done
# shellcheck disable=SC2046
set -- $(dealt "$@")
copy=$(mktemp -d)
log=$(mktemp)
trap 'rm -rf "$copy" "$log"' EXIT
trap 'exit 1' HUP INT TERM
git ls-files -z --cached --others --exclude-standard -- crates crates.txt HANDLES | xargs -0 cp --parents -t "$copy"
rm -rf "$copy"/crates/*/must-fail
edits=0
for crate in "$@"; do
    mkdir -p "$copy/crates/$crate/must-fail"
    cp "crates/$crate/wrong-bodies"/*.edit "$copy/crates/$crate/must-fail/"
    edits=$((edits + $(ls "crates/$crate/wrong-bodies" | wc -l)))
done
git -C "$copy" init -q
if rt help 2>&1 | grep -q '^ *rt ci NAME'; then
    (cd "$copy" && rt ci "$@") > "$log" 2>&1 || { cat "$log"; exit 1; }
else
    (cd "$copy" && rt must-fail "$@") > "$log" 2>&1 || { cat "$log"; exit 1; }
fi
# An edit that can't be applied, compiled or read fails no `rt ci`.
if grep 'BAD EDIT' "$log"; then exit 1; fi
grep '\.edit' "$log"
echo "wrong bodies: $edits, each refused"
