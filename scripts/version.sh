#!/bin/sh
# Prints the version, which stands in c/rust/Cargo.toml. With --check it also looks at each other place that has to name it,
# and fails if one names another.
set -eu
unset CDPATH
case "$#${1:-}" in
    0 | 1--check) ;;
    *) echo "usage: version.sh [--check]" >&2; exit 2 ;;
esac
cd "$(dirname "$0")/.."
version=$(sed -n 's/^version = "\(.*\)"$/\1/p' c/rust/Cargo.toml | head -n 1)
failed=0

# has FILE TEXT: whether the file has this text.
has() {
    grep -qF -- "$2" "$1" || { echo "version: $1 has no '$2'"; failed=1; }
}
if [ "${1:-}" = --check ]; then
    has crates/cli_words/src/subcommands.rt ".version(\"$version\")"
    has crates/c_packets/src/names.rt "b\"pciex $version\""
    has crates/pciex_c/src/answers.rt "(codes \"pciex $version\")"
    has c/pciex.h "#define PCIEX_VERSION \"$version\""
    has c/rust/Cargo.lock "version = \"$version\""
    has c/python/pyproject.toml "version = \"$version\""
    has c/python/src/pciex/_raw.py "VERSION = \"$version\""
    [ ! -e CHANGELOG.md ] || has CHANGELOG.md "## $version"
    [ $failed -eq 0 ] || exit 1
    echo "version: $version, in each place"
else
    echo "$version"
fi
