#!/bin/sh
# Whether the pages say of the crates what the tree has: map.sh. Fails if not. It tests that
#   docs/crates.md has the headings and crates of crates.txt, in its order, says in at most 12 words what each does, and
#     names functions, clauses, types and modules that the crate's src/ declares
#   crates/README.md has each heading as the name of a layer
#   where a layer's row in crates/README.md begins with names, each crate of the layer begins or ends with one of them
#   the recipe of an operation in CONTRIBUTING.md names each crate, but tests, that has an arm for CAS
#   docs/promises.md names clauses that their functions have, definitions with their number of lines, and wrong bodies
#     that exist, in at most 25 rows, and has above its table, word for word, each sentence that README.md says is proved
#   each contract and definition quoted in docs/reading-proofs.md stands in the file that is named last above it
#   each record in docs/adr has its four parts, in at most 150 words
# map.sh --write puts the numbers of lines into docs/promises.md.
unset CDPATH
case "$#${1:-}" in
    0 | 1--write) ;;
    *) echo "usage: map.sh [--write]" >&2; exit 2 ;;
esac
cd "$(dirname "$0")/.." || exit 1
room=$(mktemp -d) || exit 1
trap 'rm -rf "$room"' EXIT
trap 'exit 1' HUP INT TERM
failed=0

# fail TEXT: reports what differs.
fail() {
    echo "map of crates: $1"
    failed=1
}

# The crates and their headings. The first comment of crates.txt is its title.
awk '/^# / { if (title++) print; next } /^[a-z0-9_]+[ a-z]*:/ { sub(/[ :].*/, ""); print }' crates.txt > "$room/listed"
awk -F ' [|] ' '
    /^## / { print "# " tolower(substr($0, 4, 1)) substr($0, 5); next }
    /^[|] `/ { count = split($1, names, "`"); for (i = 2; i <= count; i += 2) print names[i] }
' docs/crates.md > "$room/rows"
if ! diff "$room/listed" "$room/rows" > "$room/differ"; then
    fail "crates.txt (<) and docs/crates.md (>) differ:"
    cat "$room/differ"
fi
grep '^# ' "$room/listed" | cut -c 3- > "$room/layers"
while read -r layer; do
    grep -qiE "^[|] (\[)?$layer(\]| )" crates/README.md || fail "crates/README.md has no layer '$layer'"
done < "$room/layers"
# The layers whose crates have names in common, and from each of the other lines of crates.txt the crate, with its layer.
awk -F ' [|] ' '
    FNR == NR {
        if ($2 !~ /^`/) next
        sub(/\].*/, "", $1); sub(/^[|] \[/, "", $1); sub(/[:|].*/, "", $2)
        names[tolower($1)] = $2
        next
    }
    /^# / { layer = tolower(substr($0, 3)); next }
    layer in names {
        right = 0
        count = split(names[layer], parts, "`")
        for (i = 2; i <= count; i += 2) {
            at = substr($0, 1, length(parts[i])) == parts[i]
            if (parts[i] ~ /^_/) at = substr($0, length($0) - length(parts[i]) + 1) == parts[i]
            if (parts[i] !~ /^_|_$/) at = $0 == parts[i]
            right = right || at
        }
        if (!right) print $0 ": " layer
    }
' crates/README.md "$room/listed" > "$room/strangers"
while read -r crate; do fail "another name than its layer's crates: $crate"; done < "$room/strangers"
awk -F ' [|] ' '/^[|] `/ && split($2, words, " ") > 12 { print $1 }' docs/crates.md > "$room/long"
while read -r row; do fail "more than 12 words: $row"; done < "$room/long"

# Where an operation has arms of its own: in code, and in definitions.
grep '^[*][*]An operation' CONTRIBUTING.md > "$room/recipe"
{
    grep -rlE '(Op|OpOf|OpRef|Kind)::Cas' crates/*/src
    grep -rlE '(ops|kinds)[.]Cas' crates/*/specs
} | cut -d / -f 2 | grep -v '_tests$' | sort -u > "$room/arms"
[ -s "$room/arms" ] || fail "no crate has an arm for CAS"
while read -r crate; do
    grep -q "\`$crate\`" "$room/recipe" || fail "the recipe of an operation lacks $crate"
done < "$room/arms"

# The last column's words in backquotes, as lines of a crate and a name.
awk -F ' [|] ' '/^[|] `/ {
    gsub(/[`| ]/, "", $1)
    parts = split($NF, cited, "`")
    for (i = 2; i <= parts; i += 2) {
        words = split(cited[i], name, /[^A-Za-z0-9_]+/)
        for (j = 1; j <= words; j++) if (name[j] != "") print $1, name[j]
    }
}' docs/crates.md > "$room/cited"
while read -r crate name; do
    grep -rqwE "(ensures|fn|mod|struct|enum|trait) $name" "crates/$crate/src" || fail "$crate has no $name"
done < "$room/cited"

# The promises: each link of a row as a line of its column, its text, its file, and what follows it in that cell.
awk -F ' [|] ' '/^[|] / && !/^[|] Layer/ {
    for (column = 3; column <= 5; column++) {
        rest = $column
        while (match(rest, /\[[^]]*\]\([^)]*\)/)) {
            link = substr(rest, RSTART, RLENGTH)
            rest = substr(rest, RSTART + RLENGTH)
            behind = rest
            sub(/\[.*/, "", behind)
            split(link, parts, /\]\(/)
            gsub(/[`\[]/, "", parts[1])
            gsub(/^\.\.\/|\)$/, "", parts[2])
            gsub(/[^A-Za-z0-9_ ]/, "", behind)
            print column, parts[1], parts[2], behind
        }
    }
}' docs/promises.md > "$room/promised"
while read -r column text file behind; do
    [ -e "$file" ] || { fail "docs/promises.md: there is no $file"; continue; }
    case $column in
        3)
            case $file in "crates/${text%%::*}/src/"*) ;; *) fail "docs/promises.md: $text isn't of $file" ;; esac
            # The function's head and contract, up to its body.
            awk -v name="${text##*::}" '
                !inside && $0 ~ "fn " name "[(<]" { inside = 1 }
                inside && /^ *\{/ { exit }
                inside
            ' "$file" > "$room/contract"
            grep -qw ensures "$room/contract" || fail "docs/promises.md: $file has no contract of ${text##*::}"
            for clause in $behind; do
                grep -qwE "ensures $clause" "$room/contract" || fail "docs/promises.md: $text has no clause $clause"
            done
            ;;
        4)
            lines=$(wc -l < "$file")
            [ "$behind" = "$lines" ] && continue
            if [ "$1" = --write ]; then
                sed -i "s#\($file)\) [0-9]*#\1 $lines#" docs/promises.md
            else
                fail "docs/promises.md: $file has $lines lines; map.sh --write puts that there"
            fi
            ;;
        5) case $file in *.edit) ;; *) fail "docs/promises.md: $file is no wrong body" ;; esac ;;
    esac
done < "$room/promised"
sed -n '/^| Layer |/,/^$/p' docs/promises.md | sed -n '3,$p' | sed 's/\[\([^]]*\)\]([^)]*)/\1/g' \
    | awk -F ' [|] ' 'NF { print $1 " | " $2 " | " $3 " |" }' > "$room/promises"
sed -n '/^## What is proved$/,/^## /s/^\([0-9]\. .*\)/\1/p' README.md > "$room/readme"
sed '/^| Layer |/,$d' docs/promises.md > "$room/above"
[ "$(wc -l < "$room/promises")" -le 25 ] || fail "docs/promises.md has more than 25 rows"
[ "$(wc -l < "$room/readme")" -ge 3 ] || fail "README.md has no three sentences of what is proved"
while read -r sentence; do
    grep -qxF -- "$sentence" "$room/above" || fail "docs/promises.md doesn't have above its table: $sentence"
done < "$room/readme"

# Quoted contracts and definitions, each as a line of its file and its text.
awk '
    /^```/ { inside = !inside; next }
    inside && file ~ /\.antt$/ || inside && /^ *(ensures|requires|pub fn) / { sub(/^ +/, ""); print file, $0 }
    !inside { while (match($0, /\.\.\/crates\/[^)]*/)) { file = substr($0, RSTART + 3, RLENGTH - 3); $0 = substr($0, RSTART + RLENGTH) } }
' docs/reading-proofs.md > "$room/quoted"
while read -r file line; do
    grep -qF -- "$line" "$file" || fail "docs/reading-proofs.md: $file has no '$line'"
done < "$room/quoted"

for record in docs/adr/*.md; do
    [ "$(wc -w < "$record")" -le 150 ] || fail "$record has more than 150 words"
    for part in Context Decision Alternatives Status; do
        grep -qF "**$part.**" "$record" || fail "$record has no part $part"
    done
done

[ $failed -ne 0 ] || echo "map of crates: $(grep -cv '^#' "$room/listed") crates, $(wc -l < "$room/cited") names," \
    "$(wc -l < "$room/promises") promises, each as the pages have it" || failed=1
exit $failed
