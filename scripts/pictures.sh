#!/bin/sh
# Draws and charts the examples, and reads each picture with python's parser of XML, where there is python. Tells each
# picture that is no XML, and whether docs/overlaps.svg, examples/lost_ack.svg, examples/first_script.svg and
# examples/overtaken.svg are the pictures of their examples: pictures.sh [PROGRAM], that of program.sh if none is named.
unset CDPATH
pciex=$(sh "$(dirname "$0")/program.sh" "$@") || exit
cd "$(dirname "$0")/.." || exit 1
room=$(mktemp -d) || exit 1
trap 'rm -rf "$room"' EXIT
trap 'exit 1' HUP INT TERM
failed=0
count=0

# is_xml FILE: whether python reads it, if there is python.
is_xml() {
    command -v python3 > /dev/null || return 0
    python3 -c 'import sys, xml.etree.ElementTree as tree; tree.parse(sys.argv[1])' "$1" 2> /dev/null
}

# makes WHAT STATUS SUBCOMMAND WORD..: makes a picture of the file $room/input, and looks at the status, the picture, and
# whether a reason is told just where the status is 1.
makes() {
    what=$1
    want=$2
    shift 2
    timeout 10 "$pciex" "$@" < "$room/input" > "$room/picture" 2> "$room/errors"
    status=$?
    count=$((count + 1))
    told=0
    [ ! -s "$room/errors" ] || told=1
    if [ $status -ne "$want" ] || [ $told -ne "$want" ] || ! is_xml "$room/picture"; then
        echo "pictures: $what: status $status, and not $want, a reason or none, or no XML"
        failed=1
    fi
}

# draws WHAT STATUS WORD..: draws the trace in $room/input.
draws() {
    what=$1
    want=$2
    shift 2
    makes "$what" "$want" draw "$@"
}

# charts WHAT STATUS WORD..: charts the script in $room/input.
charts() {
    what=$1
    want=$2
    shift 2
    makes "$what" "$want" chart "$@"
}

for name in trace overlaps; do
    cp examples/$name.txt "$room/input"
    draws $name.txt 0
    draws "points 1 to 2 of $name.txt" 0 --from 1 --to 2
    draws "points 9 to 9 of $name.txt" 0 --from 9 --to 9
done
for name in lost_ack write_passes_read credits stopped_link; do
    "$pciex" step --trace < examples/$name.txt > "$room/input"
    draws "the trace of $name.txt" 0
done
cp examples/overtaken.txt "$room/input"
makes "the log overtaken.txt" 1 search --draw
makes "the log overtaken.txt in pieces" 1 search --draw --granularity 4
cp examples/trace.txt "$room/input"
makes "what search finds of trace.txt" 0 search --draw
"$pciex" search < examples/trace.txt 2> "$room/errors" | "$pciex" draw | cmp -s - "$room/picture" || {
    echo "pictures: what search draws of trace.txt is not what draw draws of the trace that it finds"
    failed=1
}
sed 's/^ans 1 0 2 data 01020304/ans 1 0 2 data 00000000/' examples/trace.txt > "$room/input"
draws "a trace with a wrong reply" 1
# Of a picture the legend has what occurs: its texts stand at 64 pixels.
legend_is() {
    legend=$(grep -o ' y="64" [^>]*>[^<]*<' "$room/picture" | sed 's/^[^>]*>//; s/<$/;/' | tr '\n' ' ')
    [ "$legend" = "$1" ] || {
        echo "pictures: the legend is '$legend', and not '$1'"
        failed=1
    }
}
cp examples/overlaps.txt "$room/input"
draws "overlaps.txt with all signs" 0
legend_is "read; write; add; swap; cas; acted; posted, or no answer; "
draws "points 4 to 5 of overlaps.txt" 0 --from 4 --to 5
legend_is "read; write; swap; cas; acted; posted, or no answer; "
printf 'pciex-trace 2\nmemory 0 4096 64\nsub 1 0 0 swap 40 01000000\nhistory\nend\n' > "$room/input"
draws "a swap that hasn't acted" 0
legend_is "swap; posted, or no answer; "
printf 'pciex-trace 2\nmemory 0 4096 64\nhistory\nend\n' > "$room/input"
draws "an empty history" 0
legend_is ""
# Of a long history 60 points are drawn, 20 of them behind the flaw, if there is one.
window_is() {
    grep -q ">points $1 of 149; --from and --to choose others</text>" "$room/picture" || {
        echo "pictures: of a long history other points are drawn than $1"
        failed=1
    }
}
"$pciex" generate --seed 7 --events 3000 | "$pciex" step --trace > "$room/input"
draws "a long history" 0
window_is "0 to 60"
sed 's/^ans 3 33 101 data 464411CB27C5DD43/ans 3 33 101 data F64411CB27C5DD43/' "$room/input" > "$room/flawed"
mv "$room/flawed" "$room/input"
draws "a long history with a wrong reply" 1
window_is "61 to 121"
{
    printf 'pciex-log 1\nmemory 0 4096 64\n'
    seq 0 148 | sed 's/.*/sub 1 & read 40 1 F 0\nans 1 & data 00000000/'
    echo end
} > "$room/input"
makes "a long history that search finds" 0 search --draw
window_is "0 to 60"
for text in "" "<&>\"" "pciex-trace 2"; do
    echo "$text" > "$room/input"
    draws "the text '$text'" 1
done
for name in lost_ack write_passes_read credits stopped_link first_script; do
    cp examples/$name.txt "$room/input"
    charts "the chart of $name.txt" 0
    charts "the lane up1 of $name.txt" 0 --lane up1
    charts "the lines 4 to 9 of $name.txt" 0 --from 4 --to 9
    charts "the whole chart of $name.txt" 0 --all
    charts "the lane up1 of $name.txt with its levels" 0 --lane up1 --levels
done
cp examples/credits_used_up.txt "$room/input"
charts "the chart of credits_used_up.txt" 1
for text in "" "<&>\"" "fabric 9 0 4096"; do
    echo "$text" > "$room/input"
    charts "the chart of '$text'" "$([ -z "$text" ] && echo 0 || echo 1)"
done
"$pciex" generate --seed 7 --events 3000 --lose 8 --corrupt 8 > "$room/input"
charts "the chart of a storm" 0
charts "the lane in of a storm" 0 --lane in --from 1000
charts "the whole chart of a storm" 0 --all
"$pciex" generate --seed 3 --requesters 3 --events 900 --lose 4 --corrupt 8 > "$room/input"
for lane in up2 down2 in out; do
    charts "the lane $lane of three requesters" 0 --lane $lane
    [ "$(grep -o 'text-anchor="middle"[^>]*>[^<]*<' "$room/picture" | sort -u | wc -l)" -eq 2 ] || {
        echo "pictures: the lane $lane of three requesters has other lines than those of its two ends"
        failed=1
    }
done
"$pciex" generate --seed 3 --requesters 3 --events 900 --lose 4 --corrupt 8 > "$room/input"
charts "the levels of three requesters with losses" 0 --levels
[ "$(grep -o '>max [0-9]*</text>' "$room/picture" | wc -l)" -eq 34 ] || {
    echo "pictures: the levels of three requesters are not 34"
    failed=1
}
charts "the chart of three requesters with losses" 0
# No cross is on the line of a part.
crosses=$(sed 's/<g>/\n&/g' "$room/picture" | sed -n 's/^<g><title>[^<]*, lost<\/title><line [^>]* x2="\([0-9]*\)".*/\1/p')
lines=$(sed 's/<g>/\n&/g' "$room/picture" | sed -n 's/^<g><title>\(requester [0-9]*\|switch\|memory\)<\/title><line x1="\([0-9]*\)".*/\2/p')
if [ -z "$crosses" ] || [ "$(echo "$lines" | wc -l)" -ne 5 ] || echo "$crosses" | grep -qxF "$lines"; then
    echo "pictures: a cross of what was lost is on a line of three requesters"
    failed=1
fi
[ "$(grep -o '>requester 2</text>' "$room/picture" | wc -l)" -gt 10 ] || {
    echo "pictures: the names don't stand again below each 40 rows"
    failed=1
}
for name in lost_ack first_script; do
    "$pciex" chart < examples/$name.txt | cmp -s - examples/$name.svg || {
        echo "pictures: examples/$name.svg is not the chart of examples/$name.txt"
        failed=1
    }
done
"$pciex" draw < examples/overlaps.txt | cmp -s - docs/overlaps.svg || {
    echo "pictures: docs/overlaps.svg is not the picture of examples/overlaps.txt"
    failed=1
}
"$pciex" search --draw < examples/overtaken.txt 2> "$room/errors" | cmp -s - examples/overtaken.svg || {
    echo "pictures: examples/overtaken.svg is not the picture of examples/overtaken.txt"
    failed=1
}
command -v python3 > /dev/null || echo "left out: pictures as XML, since there is no python3"
echo "pictures: $count drawn, $([ $failed -eq 0 ] && echo "all as they should be" || echo "not all as they should be")" || failed=1
exit $failed
