#!/bin/sh
# Makes the archive of a release: release.sh [FOLDER [--changed]], the current folder if none is named. Below pciex-VERSION/
# it holds what install.sh installs, the pages, the examples, what c/ has for each language, and what tries a
# program (rows/ with rows.sh, pages.sh, this_machine.sh); SHA256SUMS lists its files. Program and library were built before. Prints the archive's
# path, and writes its sum into SHA256SUMS beside it, where the sums of other archives stay. Archives of one commit are the
# same bytes: so it refuses files that no commit has, unless there is --changed; the archive's name then has `changed`.
#
# Behind these it takes the options of install.sh, which name another program or library; the archive's name then has
# `unproved`.
set -eu
unset CDPATH
umask 022
case ${1-.} in
    '' | -*)
        echo "usage: release.sh [FOLDER [--changed] [OPTION..]]" >&2
        exit 2
        ;;
esac
folder=$(cd "${1:-.}" && pwd)
[ $# -eq 0 ] || shift
changed=
if [ "${1:-}" = --changed ]; then
    changed=changed-
    shift
fi
option='' unproved=''
for word in "$@"; do
    # A path is resolved where the caller stands.
    case $option in
        --program | --library) word=$(realpath -m -- "$word") option='' unproved=unproved- ;;
        *) option=$word ;;
    esac
    set -- "$@" "$word"
    shift
done
cd "$(dirname "$0")/.."
name=pciex-$(sh scripts/version.sh)
archive=$name-$changed$unproved$(uname -m)-linux.tar.gz
git diff --quiet HEAD || [ -n "$changed" ] || {
    echo "release.sh: changed files, which no commit has: $(git diff --name-only HEAD | head -n 5 | xargs)" >&2
    exit 1
}
SOURCE_DATE_EPOCH=$(git log -1 --format=%ct)
export SOURCE_DATE_EPOCH
room=$(mktemp -d)
trap 'rm -rf "$room"' EXIT
trap 'exit 1' HUP INT TERM
sh scripts/install.sh "$@" "$room/$name" >&2
git ls-files -z README.md CHANGELOG.md docs examples c rows scripts/rows.sh scripts/rows.py \
    scripts/left_out.sh scripts/pages.sh scripts/this_machine.sh scripts/program.sh |
    xargs -0 cp --parents -t "$room/$name"
(cd "$room/$name" && find . ! -type d ! -name SHA256SUMS -printf '%P\n' | LC_ALL=C sort | xargs -d '\n' sha256sum > "$room/sums")
mv "$room/sums" "$room/$name/SHA256SUMS"
tar -C "$room" --format=gnu --sort=name --owner=0 --group=0 --numeric-owner --mtime="@$SOURCE_DATE_EPOCH" \
    --mode=u+rwX,go+rX,go-w -cf - "$name" | gzip -n > "$room/$archive"
# Each is made here and moved, so that none is half.
cd "$room"
{
    [ ! -e "$folder/SHA256SUMS" ] || awk -v archive="$archive" '$2 != archive' "$folder/SHA256SUMS"
    sha256sum "$archive"
} > all_sums
cp "$archive" "$folder/$archive.part"
mv "$folder/$archive.part" "$folder/$archive"
cp all_sums "$folder/SHA256SUMS.part"
mv "$folder/SHA256SUMS.part" "$folder/SHA256SUMS"
echo "$folder/$archive"
