#!/bin/sh
# Checks a crate, and runs the tests that cover it: quick.sh NAME. The proof is that of `rt check`, the tests are run by
# `rt try --test`, which proves nothing.
#
# Most crates have no tests of their own. Then those of the nearest crate above it are run that has some; of several as near,
# those of the first in crates.txt, and the others are named. quick.sh --tests NAME only names these crates.
set -eu
unset CDPATH
cd "$(dirname "$0")/.."
only=
[ "${1:-}" != --tests ] || { only=1; shift; }
case $#,${1:-} in
    1,[!-]*) ;;
    *) echo "usage: quick.sh [--tests] NAME" >&2; exit 2 ;;
esac
[ -d "crates/$1/src" ] || { echo "quick.sh: no crate crates/$1" >&2; exit 2; }

# tested NAME: the nearest crates that have tests, the first to run first.
tested() {
    with=$(grep -rls --include='*.rt' '#\[test\]' crates/*/src | cut -d / -f 2 | sort -u | tr '\n' ' ')
    awk -v name="$1" -v with="$with" '
        BEGIN { count = split(with, list, " "); for (i = 1; i <= count; i++) tests[list[i]] = 1 }
        /^[a-z0-9_]+[ a-z]*:/ {
            crate = $1; sub(/:$/, "", crate); order[++crates] = crate
            text = $0; sub(/^[^:]*:/, "", text); sub(/#.*/, "", text); below[crate] = " " text " "
        }
        END {
            near[name] = 1
            for (;;) {
                found = 0
                for (i = 1; i <= crates; i++) if (order[i] in near && order[i] in tests) { print order[i]; found++ }
                if (found) exit
                grown = 0
                delete more
                for (i = 1; i <= crates; i++) for (crate in near)
                    if (!(order[i] in near) && index(below[order[i]], " " crate " ")) more[order[i]] = 1
                for (crate in more) { near[crate] = 1; grown++ }
                if (!grown) exit
            }
        }
    ' crates.txt
}
tests=$(tested "$1")
if [ -n "$only" ]; then
    echo "$tests"
    exit
fi
(cd "crates/$1" && rt check)
[ -n "$tests" ] || { echo "quick.sh: no test covers $1"; exit; }
first=$(echo "$tests" | head -n 1)
others=$(echo "$tests" | tail -n +2 | tr '\n' ' ')
(cd "crates/$first" && rt try --test)
echo "quick.sh: $1 is proved, and the tests of $first pass${others:+; others cover it, too: ${others% }}"
