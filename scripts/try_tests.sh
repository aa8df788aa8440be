#!/bin/sh
# Runs all tests without a proof: try_tests.sh [CRATE..], all crates with tests if none is named. It runs `rt try --test`
# in each of them, two at a time, on a copy of the tree. This proves nothing: it shows in minutes whether a test fails.
# The status is 1 if a test fails. The last line has the number of crates, tests and seconds.
#
# Tests are compiled without optimisation here, and each has 180 seconds.
set -eu
unset CDPATH
cd "$(dirname "$0")/.."
# shellcheck disable=SC2046 # names of crates have no spaces
[ $# -gt 0 ] || set -- $(grep -rls --include='*.rt' '#\[test\]' crates/*/src | cut -d / -f 2 | sort -u)
for crate in "$@"; do
    case $crate in
        '' | -* | */* | .*) echo "usage: try_tests.sh [CRATE..]" >&2; exit 2 ;;
    esac
    [ -d "crates/$crate/src" ] || { echo "try_tests.sh: no crate crates/$crate" >&2; exit 2; }
done
begin=$(date +%s)
copy=$(mktemp -d)
trap 'rm -rf "$copy"' EXIT
trap 'exit 1' HUP INT TERM
git ls-files -z --cached --others --exclude-standard -- crates crates.txt HANDLES | xargs -0 cp --parents -t "$copy"
git -C "$copy" init -q

# in_crate COPY CRATE: runs the tests of one crate, and writes the number that passed and the number that failed.
# shellcheck disable=SC2016
in_crate='
    cd "$0/crates/$1" || exit 1
    rt try --test --seconds 180 > "$0/$1.log" 2>&1 && status=0 || status=$?
    passed=$(grep -c "^test .* \.\.\. ok$" "$0/$1.log")
    failed=$(grep -c "^test .* \.\.\. FAILED" "$0/$1.log")
    if [ $status -eq 0 ] && [ "$failed" -eq 0 ] && [ "$passed" -gt 0 ]; then
        echo "$1: $passed passed"
        echo "$passed 0" > "$0/$1.count"
    else
        echo "$1: $passed passed, $failed failed, status $status"
        grep -A 3 "^test .* \.\.\. FAILED" "$0/$1.log" || tail -n 5 "$0/$1.log"
        echo "$passed 1" > "$0/$1.count"
    fi
'
printf '%s\n' "$@" | xargs -P 2 -n 1 sh -c "$in_crate" "$copy"
cat "$copy"/*.count | awk -v crates=$# -v seconds=$(($(date +%s) - begin)) '
    { passed += $1; failed += $2 }
    END {
        printf "tests without a proof: %d crates, %d tests passed, %d crates failed, %d seconds\n", crates, passed, failed, seconds
        exit failed > 0
    }
'
