#!/bin/sh
# Asks the program by two pipes: co_process.sh [PROGRAM], that of program.sh if none is named. Each line has to be
# answered before another one is written. Then runs what docs/without-the-library.md and docs/python.md show, and the tests
# of the class `Program` of the Python package, without the library. Says what it left out because a tool is missing.
unset CDPATH
pciex=$(sh "$(dirname "$0")/program.sh" "$@") || exit
cd "$(dirname "$0")/.." || exit 1
. scripts/left_out.sh
say() { echo "co-process: $*"; }
room=$(mktemp -d) || exit 1
trap 'rm -rf "$room"' EXIT
trap 'exit 1' HUP INT TERM
ln -s "$pciex" "$room/pciex"
export PATH="$room:$PATH" PYTHONDONTWRITEBYTECODE=1 PYTHONPATH="$PWD/c/python/src" PCIEX_PROGRAM="$pciex" PCIEX_SO=/no/library
failed=0

# block PAGE HEADING LANGUAGE: the lines of the first block of code in that language below the heading.
block() {
    awk -v heading="$2" -v fence="\`\`\`$3" '
        $0 == heading { on = 1 }
        on && /^```/ && !inside { inside = 1; is_wanted = $0 == fence; next }
        inside && /^```$/ { if (is_wanted) exit; inside = 0 }
        inside && is_wanted' "docs/$1"
}

# shows TOOL PAGE HEADING LANGUAGE WANTED: whether what the page shows prints this file, if the tool is there.
shows() {
    has "$1" "what docs/$2 shows in $4" || return 0
    block "$2" "$3" "$4" > "$room/shown"
    timeout 60 "$1" "$room/shown" > "$room/printed" 2>&1 < /dev/null && cmp -s "$5" "$room/printed" && return
    say "what docs/$2 shows in $4 prints"
    cat "$room/printed"
    failed=1
}
echo "4A000001 00000004 01000500 00000000" > "$room/completion"
shows bash without-the-library.md "## From any language, without the library" bash "$room/completion"
shows tclsh without-the-library.md "## From any language, without the library" tcl "$room/completion"
block python.md "## Without the library" "" > "$room/wanted"
shows python3 python.md "## Without the library" python "$room/wanted"
if has python3 "the program by two pipes"; then
    python3 scripts/co_process.py "$pciex" || failed=1
    if ! python3 -m unittest -q c/python/tests/test_program.py > "$room/log" 2>&1; then
        tail -n 20 "$room/log"
        say "the tests of the Python class fail"
        failed=1
    fi
fi
exit $failed
