#!/bin/sh
# Lists the public functions that no proved test calls: called.sh [--tests]. A function that answers only that it is out of
# memory meets any contract that allows it, so each wants one call that succeeds, in a test that is proved. Not in the gate:
# run it when tests are taken out of a crate. With --tests it prints each function that is called, with the tests that do.
#
# It notes each call in a translation to plain Rust, and runs each test there alone. Laws, which have no code, `const`
# functions and the exported twins of the functions for C are not looked at; plain/tests is not proved, so it isn't run.
# What only the programs call is called by scripts, and is listed here.
set -eu
unset CDPATH
case "$#${1:-}" in
    0 | 1--tests) ;;
    *) echo "usage: called.sh [--tests]" >&2; exit 2 ;;
esac
cd "$(dirname "$0")/.."
. scripts/left_out.sh
has python3 "a list of functions without a call" || exit 0
has cargo "a list of functions without a call" || exit 0
room=$(mktemp -d)
trap 'rm -rf "$room"' EXIT
trap 'exit 1' HUP INT TERM
export PYTHONDONTWRITEBYTECODE=1 CARGO_NET_OFFLINE=true
python3 plain/translator/translate.py . "$room/out"
python3 scripts/called.py "$room/out" "$@"
