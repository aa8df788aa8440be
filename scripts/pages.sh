#!/bin/sh
# Runs what the pages show, and fails where something differs: pages.sh [PROGRAM], that of program.sh if none is named.
#
# Each command behind `$ ` is run at the top of the repository, with the program on the path, and has to print, on either
# stream, what the page shows below it. If no program is named, each block ```sh tried TOOL.. is run, too, in a copy of the
# repository, unless one of these tools is missing; its status has to be 0. The page's first program in C is first.c there,
# the first one in Python first.py, and what such a block prints is what stands behind the first line that ends in `prints:`
# below that program. The pages have at most 20,500 words together, without docs/formats.md, and README.md 700.
unset CDPATH
pciex=$(sh "$(dirname "$0")/program.sh" "$@") || exit
cd "$(dirname "$0")/.." || exit 1
. scripts/left_out.sh
room=$(mktemp -d) || exit 1
trap 'rm -rf "$room"' EXIT
trap 'exit 1' HUP INT TERM
help=$room/bin/help
mkdir "$room/bin" "$room/page"
ln -s "$pciex" "$room/bin/pciex"
PATH=$room/bin:$PATH
export PATH
runs=0
failed=0

# at_most COUNT FILE..: whether these files have as many words or fewer.
at_most() {
    most=$1
    shift
    words=$(cat "$@" | wc -w)
    [ "$words" -le "$most" ] && return
    echo "$1${2:+ and others}: $words words, and at most $most are wanted"
    failed=1
}
pages="README.md CONTRIBUTING.md"
for page in docs/*.md; do
    [ "$page" = docs/formats.md ] || pages="$pages $page"
done
at_most 700 README.md
# shellcheck disable=SC2086 # a word for each page; the archive of a release hasn't all
[ ! -e CONTRIBUTING.md ] || at_most 20500 $pages

# The examples in the help of the subcommands are one page more. The pictures that two of them draw are not kept.
{
    echo '```'
    for name in $(pciex --help | sed -n '/^Commands:/,/^$/s/^  \([a-z]*\) .*/\1/p' | grep -v '^help$'); do
        pciex "$name" --help | sed -n '/^Example:/,$s/^  //p' | sed 's#> [a-z]*[.]svg$#> /dev/null#'
    done
    echo '```'
} > "$help"
for page in "$help" README.md docs/*.md; do
    rm -f "$room"/page/*
    awk -v room="$room/page" '
        /^```/ { inside = !inside; wanted = ""; next }
        inside && /^\$ / { count++; wanted = room "/" count; print substr($0, 3) > (wanted ".command"); printf "" > (wanted ".wanted"); next }
        inside && wanted { print > (wanted ".wanted") }
    ' "$page"
    number=1
    while [ -e "$room/page/$number.command" ]; do
        # A command that needs the toolchain, as `cd .. && rt run`, is tried by what proves the crates.
        if ! grep -qE '(^|&& )rt ' "$room/page/$number.command"; then
            sh "$room/page/$number.command" > "$room/printed" 2>&1 < /dev/null
            runs=$((runs + 1))
            if ! cmp -s "$room/printed" "$room/page/$number.wanted"; then
                echo "$page: $(cat "$room/page/$number.command")"
                diff "$room/page/$number.wanted" "$room/printed" | head -n 8
                failed=1
            fi
        fi
        number=$((number + 1))
    done
done

# program PAGE LANGUAGE FILE: the page's first block in that language, and in FILE.out what the page says that it prints.
program() {
    awk -v fence="\`\`\`$2" -v file="$3" '
        $0 == fence && !begun { begun = inside = 1; next }
        inside && $0 == "```" { inside = 0; behind = 1; next }
        inside { print > file; next }
        behind && /prints:$/ { shown = 1; next }
        shown == 1 && /^```$/ { shown = 2; next }
        shown == 2 && /^```$/ { exit }
        shown == 2 { print > (file ".out") }' "$1"
}

# tried PAGE: runs each block of the page that is to be tried, in the copy.
tried() {
    rm -f "$copy"/first.* "$room"/page/*
    program "$1" c "$copy/first.c"
    program "$1" python "$copy/first.py"
    awk -v room="$room/page" '
        /^```sh tried / { count++; sub(/^```sh tried /, ""); print > (room "/" count ".tools"); inside = 1; next }
        /^```/ { inside = 0 }
        inside { print > (room "/" count ".block") }' "$1"
    for block in "$room"/page/*.block; do
        [ -e "$block" ] || continue
        lacks=
        for tool in $(cat "${block%.block}.tools"); do
            command -v "$tool" > /dev/null || lacks="$lacks $tool"
        done
        if [ -n "$lacks" ]; then
            left_out "a block of $1" "${lacks# }"
            continue
        fi
        runs=$((runs + 1))
        wanted=
        for name in first.c first.py; do
            if grep -q " $name" "$block" && [ -e "$copy/$name.out" ]; then wanted=$copy/$name.out; fi
        done
        (cd "$copy" && sh -e "$block") > "$room/printed" 2> "$room/errors" < /dev/null && {
            [ -z "$wanted" ] || tail -n "$(wc -l < "$wanted")" "$room/printed" | cmp -s - "$wanted"
        } && continue
        echo "$1: $(cat "$block")"
        tail -n 5 "$room/printed" "$room/errors"
        failed=1
    done
}
if [ $# -eq 0 ] && [ -d plain ]; then
    copy=$room/copy
    mkdir "$copy"
    git ls-files -z --cached --others --exclude-standard | xargs -0 cp --parents -t "$copy"
    CARGO_INSTALL_ROOT=$room CARGO_NET_OFFLINE=true
    export CARGO_INSTALL_ROOT CARGO_NET_OFFLINE
    rm "$room/bin/pciex"
    for page in README.md docs/*.md; do
        tried "$page"
    done
fi
[ $failed -ne 0 ] || echo "commands of pages: $runs, each as its page shows" || failed=1
exit $failed
