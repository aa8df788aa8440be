#!/bin/sh
# Measures the built program and the built library for C, and prints a table in Markdown: run.sh [RUNS], 5 if not given.
# With --alone ENGINE [FOLDER] it counts one engine's instructions a unit, in the whole program and in the program that
# scripts/engine_alone.sh made in FOLDER, where each is built. With --threads [RUNS] it prints the processor seconds of
# `run` by its number of workers, and of bench/lock.rs, which has the same fabric behind a lock, both in plain Rust. With
# --limits [PROGRAM] it compares what the hand-tuned programs bench/limit_*.c and the program print, and counts both. With
# --check FOLDER nothing is measured: each input and each program is made, small, and has to go through, over the workspace
# of plain Rust in FOLDER and its optimized build (scripts/plain_rust.sh --check calls it).
#
# Seconds are processor seconds (user and system), the least of the runs. Instructions are counted by callgrind, as the
# difference of two inputs of about 10,000 and 20,000 units, divided by the difference of the units. Peak memory is the
# largest resident set. Growth is the factor of both when the input is doubled. `rt ci` or `rt run` has to have built
# crates/pciex, and c/check.sh or `rt lib` crates/pciex_c. What is left out is said below the table.
#
# Tried, and not kept: in `run` workers that spin before they yield take 1.4 times the processor seconds.
# shellcheck disable=SC2016 # backquotes of Markdown, and words of an inner shell
set -eu
unset CDPATH
usage() {
    echo "usage: run.sh [RUNS], run.sh --threads [RUNS], run.sh --alone ENGINE [FOLDER], run.sh --limits [PROGRAM], or run.sh --check FOLDER" >&2
    exit 2
}
alone=''
if [ "${1:-}" = --alone ]; then
    case $#,${2:-},${3-.} in
        2,[!,-]* | 3,[!,-]*,[!-]*) ;;
        *) usage ;;
    esac
    [ $# -eq 2 ] || set -- "$1" "$2" "$(realpath -m -- "$3")"
    alone=$2
    program=${3:-${XDG_CACHE_HOME:-$HOME/.cache}/pciex/alone-$2}/crates/alone/out/alone
    shift $#
fi
limits=''
if [ "${1:-}" = --limits ]; then
    case $#,${2-.} in 1,. | 2,[!-]*) ;; *) usage ;; esac
    limits=$(realpath -m -- "${2:-$(dirname "$0")/../crates/pciex/out/pciex}")
    shift $#
fi
threads=''
if [ "${1:-}" = --threads ]; then
    threads=yes
    shift
fi
workspace=''
if [ "${1:-}" = --check ]; then
    case $#,${2-} in 2,[!-]*) ;; *) usage ;; esac
    workspace=$(cd "$2" && pwd)
    shift 2
fi
runs=${1-5}
case $#,$runs in
    *,0* | *,*[!0-9]* | *, | [!01],*) usage ;;
esac
cd "$(dirname "$0")/.."
pciex=$PWD/crates/pciex/out/pciex
library=$PWD/crates/pciex_c/out/libpciex_c.a
left_out="the hall against the fabric and the receive queue alone (both need a program in Rattle)"
room=$(mktemp -d)
trap 'rm -rf "$room"' EXIT
trap 'exit 1' HUP INT TERM
command -v cc > /dev/null || { echo "run.sh: there is no cc" >&2; exit 1; }
cc -O2 -Wall -Wextra -Werror -std=c99 -o "$room/measure" bench/measure.c

# input KIND SCALE: makes the input of this scale in $room/input, and sets $units, the number of its units.
input() {
    case $1 in
        lines) awk -v lines="$2" -f bench/lines.awk > "$room/input" ;;
        trace) awk -v rounds="$2" -f bench/trace.awk > "$room/input" ;;
        script) awk -v rounds="$2" -f bench/script.awk > "$room/input" ;;
        each | short | long | linked) awk -v plan="$1" -v requests="$2" -f bench/endpoint.awk > "$room/input" ;;
        counter | mixed | locks) awk -v plan="$1" -v requests="$2" -f bench/log.awk > "$room/input" ;;
        nothing*) : > "$room/input" ;;
    esac
    case $1 in
        nothing*) units=$(($2 * ${1#nothing})) ;;
        each | short | long | linked) units=$2 ;;
        *) units=$(wc -l < "$room/input") ;;
    esac
}

# of_scale SCALE COMMAND..: the command with SCALE in place of N in words N and 1..N, in the lines of $room/words.
of_scale() {
    scale=$1
    shift
    for word in "$@"; do
        case $word in N | 1..N) word=${word%N}$scale ;; esac
        echo "$word"
    done > "$room/words"
}

# measured KIND SCALE COMMAND..: the least seconds and the peak memory in kilobytes, as two words.
measured() {
    input "$1" "$2"
    shift
    of_scale "$@"
    xargs -a "$room/words" -d '\n' "$room/measure" "$runs" "$room/input"
}

# counted KIND SCALE COMMAND..: sets $instructions and $units.
counted() {
    input "$1" "$2"
    shift
    of_scale "$@"
    xargs -a "$room/words" -d '\n' sh -c 'exec valgrind --tool=callgrind --callgrind-out-file=/dev/null "$@" < "$0"' "$room/input" > /dev/null 2> "$room/log" ||
        { echo "run.sh: $(tr '\n' ' ' < "$room/words")fails under valgrind" >&2; exit 1; }
    instructions=$(sed -n 's/.*Collected : \([0-9]*\).*/\1/p' "$room/log")
}

# count KIND SMALL COMMAND..: sets $per_unit, the instructions a unit, by the scales SMALL and twice that.
count() {
    kind=$1 small=$2
    shift 2
    counted "$kind" "$small" "$@"
    first=$instructions first_units=$units
    counted "$kind" $((2 * small)) "$@"
    per_unit=$(((instructions - first) / (units - first_units)))
}

# prints KIND SCALE COMMAND..: runs the command on the input of this scale.
prints() {
    input "$1" "$2"
    shift
    of_scale "$@"
    xargs -a "$room/words" -d '\n' sh -c 'exec "$@" < "$0"' "$room/input"
}

# limit NAME KIND SMALL WORDS WORD..: builds bench/limit_NAME.c, and compares what it prints, with these words, and the program
# with the words behind. With --limits it counts both, and prints a row.
limit() {
    name=$1 kind=$2 small=$3 own=$4
    shift 4
    cc -O3 -march=x86-64-v2 -Wall -Wextra -Werror -std=gnu99 -o "$room/limit_$name" "bench/limit_$name.c"
    prints "$kind" "$small" "$pciex" "$@" > "$room/wanted"
    # shellcheck disable=SC2086 # the words of a command line
    prints "$kind" "$small" "$room/limit_$name" $own > "$room/printed"
    if ! cmp -s "$room/wanted" "$room/printed"; then
        echo "bench: limit_$name doesn't print what pciex $* prints"
        failed=1
        return
    fi
    [ -n "$limits" ] || return 0
    # shellcheck disable=SC2086 # the words of a command line
    count "$kind" "$small" "$room/limit_$name" $own
    least=$per_unit
    count "$kind" "$small" "$pciex" "$@"
    echo "| \`pciex $*\` | $kind | $least | $per_unit | $(echo "$least $per_unit" | awk '{ printf "%.1f", $2 / $1 }') |"
}
all_limits() {
    limit tlp lines 10000 '' tlp
    limit check trace 540 '' check
    limit step script 10 '' step
    limit generate nothing1 10000 '7 8 N' generate --seed 7 --lose 8 --events N
    limit endpoint each 10000 '' endpoint
    limit endpoint short 3200 '' endpoint
    limit linked linked 5000 '' endpoint --link
}
if [ -n "$limits" ]; then
    failed=0
    pciex=$limits
    echo "| Run | Input | Instructions a unit by hand | Instructions a unit | Factor |"
    echo "|---|---|---|---|---|"
    all_limits
    exit $failed
fi

# lock_over FOLDER WORD..: builds bench/lock.rs over the workspace in FOLDER, into its folder target, with these words for
# cargo.
lock_over() {
    out=$1
    shift
    mkdir -p "$room/lock"
    {
        printf '%s\n' '[package]' 'name = "lock"' 'edition = "2024"' '[workspace]' '[[bin]]' 'name = "lock"' "path = \"$PWD/bench/lock.rs\"" '[dependencies]'
        sed -n 's/^use \([a-z_]*\)::.*/\1/p' bench/lock.rs | grep -v '^std$' | sort -u | while read -r crate; do
            echo "$crate = { path = \"$out/$crate\" }"
        done
        sed -n '/^\[profile.release\]/,/^$/p' "$out/Cargo.toml"
    } > "$room/lock/Cargo.toml"
    (cd "$room/lock" && CARGO_TARGET_DIR="$out/target" cargo build --offline --quiet "$@") >&2
}

if [ -n "$threads" ]; then
    python3 plain/translator/translate.py "$PWD" "$room/out" > /dev/null
    (cd "$room/out" && cargo build --offline --quiet --release --bin pciex) >&2
    lock_over "$room/out" --release
    : > "$room/input"
    echo "140000 additions of 7 requesters: processor seconds, peak kilobytes"
    echo "one lock: $("$room/measure" "$runs" "$room/input" "$room/out/target/release/lock" 7 20000)"
    for workers in 1 2 4 8 34; do
        echo "run --workers $workers: $("$room/measure" "$runs" "$room/input" "$room/out/target/release/pciex" run --requesters 7 --each 20000 --workers $workers)"
    done
    exit 0
fi

# of_library ARCHIVE ARCHIVE: compiles the programs in C over the library's archive and the toolchain's.
of_library() {
    for name in device fabric endpoint; do
        cc -O2 -Wall -Wextra -Werror -std=c99 -Ic -o "$room/$name" bench/$name.c "$@"
    done
}

# goes KIND SCALE COMMAND..: whether the command has status 0 on the input, which has a line.
goes() {
    input "$1" "$2"
    kind=$1
    shift 2
    tried=$((tried + 1))
    [ "$kind" = nothing1 ] || [ -s "$room/input" ] || { echo "bench: no $kind"; failed=1; }
    "$@" < "$room/input" > "$room/output" 2>&1 && return
    tail -n 3 "$room/output"
    echo "bench: failed on $kind: $*"
    failed=1
}
if [ -n "$workspace" ]; then
    failed=0
    tried=0
    built=$workspace/target/release
    of_library "$built/libpciex_c.a" "$workspace/liblibc_c.a"
    lock_over "$workspace"
    goes nothing1 1 "$room/device" 9
    goes nothing1 1 "$room/endpoint" 9
    goes nothing1 1 "$room/endpoint" 9 link
    goes nothing1 1 "$room/endpoint" 9 crc
    goes script 1 "$room/fabric"
    goes script 1 "$built/pciex" step
    goes lines 9 "$built/pciex" tlp
    goes lines 9 "$built/pciex" decode
    goes trace 9 "$built/pciex" check
    goes trace 9 "$built/pciex" upgrade
    for kind in each short long; do
        goes $kind 9 "$built/pciex" endpoint
    done
    goes linked 9 "$built/pciex" endpoint --link
    for kind in counter mixed locks; do
        goes $kind 99 "$built/pciex" search
    done
    if [ "$(uname -m)" = x86_64 ]; then
        pciex=$built/pciex
        all_limits
    else
        echo "left out: the hand-tuned programs of bench/, which are for x86-64"
    fi
    goes nothing1 1 "$workspace/target/debug/lock" 2 20
    "$built/pciex" run --requesters 2 --each 20 > "$room/counted"
    cmp "$room/counted" "$room/output" || failed=1
    goes nothing1 1 "$room/measure" 1 /dev/null "$built/pciex" --version
    echo "bench: $tried runs, $([ $failed -eq 0 ] && echo "all go through" || echo "not all go through")"
    exit $failed
fi

if [ -n "$alone" ]; then
    words=$alone
    case $alone in
        tlp | decode) kinds=lines small=10000 ;;
        endpoint) kinds=each small=10000 ;;
        check | upgrade) kinds=trace small=540 ;;
        search) kinds='counter mixed locks' small=2000 ;;
        step) kinds=script small=10 ;;
        trace) kinds=script small=10 words='step --trace' ;;
        *) echo "run.sh: ENGINE is tlp, endpoint, decode, check, upgrade, search, step or trace" >&2; exit 2 ;;
    esac
    for kind in $kinds; do
        if [ -x "$pciex" ]; then
            # shellcheck disable=SC2086 # the words of a command line
            count "$kind" "$small" "$pciex" $words
            echo "$alone in the whole program, $kind: $per_unit instructions a unit"
        fi
        if [ -x "$program" ]; then
            count "$kind" "$small" "$program"
            echo "$alone alone, $kind: $per_unit instructions a unit"
        fi
    done
    exit 0
fi

# row TITLE UNIT KIND LARGE SMALL COMMAND..: measures at the scales LARGE and twice that, counts at SMALL and twice that (not
# at all if SMALL is 0), and prints the row.
row() {
    title=$1 unit=$2 kind=$3 large=$4 small=$5
    shift 5
    per_unit="-"
    if [ "$small" -gt 0 ] && command -v valgrind > /dev/null; then
        count "$kind" "$small" "$@"
    fi
    twice=$(measured "$kind" $((2 * large)) "$@")
    once=$(measured "$kind" "$large" "$@")
    input "$kind" "$large"
    echo "$once $twice" | awk -v title="$title" -v unit="$unit" -v units="$units" -v per_unit="$per_unit" '{
        printf "| %s | %d %s | %.2f | %s | %.1f | %.1f | %.1f |\n", title, units, unit, $1, per_unit, $2 / 1024, $3 / ($1 > 0 ? $1 : 0.001), $4 / $2
    }'
}

echo "| Run | Input | Seconds | Instructions a unit | Peak memory (MiB) | Seconds when doubled | Memory when doubled |"
echo "|---|---|---|---|---|---|---|"
if [ -x "$pciex" ]; then
    row '`pciex tlp`' lines lines 1000000 10000 "$pciex" tlp
    row '`pciex endpoint`, the same requests' requests each 1000000 10000 "$pciex" endpoint
    row '`pciex endpoint --trace`, the same' requests each 1000000 10000 "$pciex" endpoint --trace
    row '`pciex endpoint`, reads of 128 bytes' requests short 320000 3200 "$pciex" endpoint
    row '`pciex endpoint`, reads of 4096 bytes' requests long 10000 100 "$pciex" endpoint
    row '`pciex decode`' lines lines 1000000 10000 "$pciex" decode
    row '`pciex step`' lines script 296 10 "$pciex" step
    row '`pciex step --trace`' lines script 296 10 "$pciex" step --trace
    row '`pciex check`' lines trace 42857 540 "$pciex" check
    row '`pciex search`, a counter with 256 open requests each' lines counter 50000 2000 "$pciex" search
    row '`pciex search`, all operations on 16 words' lines mixed 50000 2000 "$pciex" search
    row '`pciex search`, a lock' lines locks 50000 2000 "$pciex" search
    row '`pciex upgrade`' lines trace 42857 540 "$pciex" upgrade
    row '`pciex generate --lose 8`' events nothing1 1000000 10000 "$pciex" generate --seed 7 --lose 8 --events N
    row '`pciex sweep --lose 8 --corrupt 9`, 1000 events each' seeds nothing1 1000 100 "$pciex" sweep --workers 1 --lose 8 --corrupt 9 --events 1000 --seeds 1..N
    row '`pciex run`, 7 requesters' additions nothing7 20000 0 "$pciex" run --requesters 7 --each N
    row '`pciex run --lose 2 --corrupt 3`, 7 requesters' additions nothing7 2000 0 "$pciex" run --requesters 7 --lose 2 --corrupt 3 --each N
else
    left_out="$left_out, the program, which isn't built"
fi
if [ -e "$library" ]; then
    kit=$(dirname "$(rt doc)")/c
    of_library "$library" "$kit/liblibc_c.a"
    row '`pciex_answer` from C' calls nothing1 1000000 10000 "$room/device" N
    row '`pciex_endpoint_tlp` and `_next` from C' requests nothing1 1000000 10000 "$room/endpoint" N
    row '`pciex_linked_packet` and `_next` from C, an Ack for each' requests nothing1 1000000 10000 "$room/endpoint" N link
    row 'the same with CRCs' requests nothing1 1000000 10000 "$room/endpoint" N crc
    row '`pciex_fabric_event` from C, with its trace and `pciex_check`' lines script 296 10 "$room/fabric"
else
    left_out="$left_out, the library for C, which isn't built"
fi
command -v valgrind > /dev/null || left_out="$left_out, instructions, since there is no valgrind"
echo
echo "Left out: $left_out."
