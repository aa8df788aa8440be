#!/bin/sh
# Counts the figures that can be counted, writes them into docs/figures.txt, and the figures of that file into the pages.
# A page cites a figure on one line, outside a block of code, as <!--NAME-->VALUE<!---->. With --check nothing is written:
# each figure or page that would change is reported, and the script fails. Measured figures are changed in docs/figures.txt.
set -eu
unset CDPATH
case "$#${1:-}" in
    0) check= ;;
    1--check) check=1 ;;
    *) echo "usage: figures.sh [--check]" >&2; exit 2 ;;
esac
cd "$(dirname "$0")/.."
figures=docs/figures.txt
room=$(mktemp -d)
trap 'rm -rf "$room"' EXIT
trap 'exit 1' HUP INT TERM
failed=0

# count FILE..: the number of these files.
count() {
    [ -e "$1" ] || { echo 0; return; }
    echo $#
}
in=$(count crates/*/must-fail/*.edit)
out=$(count crates/*/wrong-bodies/*.edit)
{
    echo "crates $(grep -c '^[a-z0-9_]*[ a-z]*:' crates.txt)"
    echo "wrong_bodies $((in + out))"
    echo "wrong_bodies_in $in"
    echo "wrong_bodies_out $out"
    echo "rows $(cat rows/*.rows | grep -c '^\$')"
    # Each test of the crates is one of plain Rust, too; so are those of the kit, without what stands for crates of crates.io.
    echo "plain_tests $(find crates/*/src plain/kit plain/tests \( -name '*.rt' -o -name '*.rs' \) ! -path '*/originals/*' \
        ! -path '*/target/*' -exec cat {} + | grep -c '^ *#\[test\]')"
    if command -v rt > /dev/null; then
        echo "logic $(rt version | sed 's/.* //')"
    fi
} > "$room/counted"

# Each line NAME VALUE of the file, with the value that was counted.
awk -v counted="$room/counted" '
    BEGIN { while ((getline line < counted) > 0) { split(line, words, " "); value[words[1]] = words[2] } }
    $1 in value { print $1, value[$1]; delete value[$1]; next }
    { print }
    END { for (name in value) { print "figures: docs/figures.txt has no line " name > "/dev/stderr"; missing = 1 } exit missing }
' $figures > "$room/figures" || exit 1

# put FILE NEW: the new text takes the place of the file, or it is reported that it differs.
put() {
    cmp -s "$1" "$2" && return
    if [ -z "$check" ]; then
        cat "$2" > "$1"
        echo "figures: $1 is written anew"
    else
        echo "figures: $1 has other figures than those that hold: sh scripts/figures.sh writes them"
        failed=1
    fi
}
[ -z "$check" ] || diff $figures "$room/figures" | sed -n 's/^</figures: the file has/p; s/^>/figures: there are/p'
put $figures "$room/figures"
cited=0
for page in README.md CONTRIBUTING.md CHANGELOG.md docs/*.md; do
    awk -v figures="$room/figures" -v page="$page" -v cited="$room/cited" '
        BEGIN {
            while ((getline line < figures) > 0)
                if (line ~ /^[a-z_]+ ./) value[substr(line, 1, index(line, " ") - 1)] = substr(line, index(line, " ") + 1)
        }
        function wrong(what) {
            print page ":" NR ": " what > "/dev/stderr"
            failed = 1
        }
        /^ *```/ { inside = !inside }
        {
            done = ""
            while (match($0, /<!--[a-z_]+-->/)) {
                name = substr($0, RSTART + 4, RLENGTH - 7)
                done = done substr($0, 1, RSTART + RLENGTH - 1)
                $0 = substr($0, RSTART + RLENGTH)
                if (inside) wrong("a marker in a block of code")
                if (!(name in value)) wrong("docs/figures.txt has no figure " name)
                if (!match($0, /^[^<]*<!---->/)) { wrong("no <!----> behind the figure " name); break }
                done = done value[name] "<!---->"
                $0 = substr($0, RLENGTH + 1)
                count++
            }
            print done $0
        }
        END { print count + 0 > cited; exit failed }
    ' "$page" > "$room/page" || { failed=1; continue; }
    cited=$((cited + $(cat "$room/cited")))
    put "$page" "$room/page"
done
[ $failed -ne 0 ] || echo "figures: $cited cited, each as docs/figures.txt has it" || failed=1
exit $failed
