#!/bin/sh
# Builds the program without its proofs (scripts/unproved.sh), and runs it and the proved one on each file of
# examples/first: first_examples.sh [PROGRAM], that of program.sh if none is named. Both have to print the same, with
# the same status. Tells each file where they don't.
unset CDPATH
pciex=$(sh "$(dirname "$0")/program.sh" "$@") || exit
cd "$(dirname "$0")/.." || exit 1
say() { echo "first examples: $*"; }
if ! command -v rt > /dev/null; then
    echo "left out: the first examples without proofs, since there is no rt"
    exit 0
fi
room=$(mktemp -d) || exit 1
trap 'rm -rf "$room"' EXIT
trap 'exit 1' HUP INT TERM
mkdir "$room/tmp" || exit 1
TMPDIR=$room/tmp sh scripts/unproved.sh "$room/pciex" > "$room/log" 2>&1 || { cat "$room/log"; exit 1; }
files=0
failed=0
if [ -n "$(ls -A "$room/tmp")" ]; then
    say "unproved.sh leaves files behind"
    failed=1
fi
for file in examples/first/*.txt; do
    # shellcheck disable=SC2046 # one word a line
    "$pciex" $(cat "$file.args") < "$file" > "$room/wanted" 2>&1
    echo "status $?" >> "$room/wanted"
    # shellcheck disable=SC2046
    "$room/pciex" $(cat "$file.args") < "$file" > "$room/printed" 2>&1
    echo "status $?" >> "$room/printed"
    files=$((files + 1))
    cmp -s "$room/wanted" "$room/printed" && continue
    say "$file: the unproved program prints"
    cat "$room/printed"
    failed=1
done
say "$files, $([ $failed -eq 0 ] && echo "each alike without proofs" || echo "not each alike without proofs")" || failed=1
exit $failed
