#!/bin/sh
# Runs random stress scripts for a range of seeds, on all processors or on more machines: sweep.sh LOG FIRST LAST [OPTION..]
#
#     pciex sweep --workers 1 --seeds SEEDS OPTION..
#
# for each 100 seeds. `pciex sweep` alone does all on one machine; this one can be killed, and goes on. Without an OPTION it
# takes `--events 1000 --lose 8 --corrupt 9`. It stops at a seed that fails, and prints the least such seed with the command
# that repeats it; the status is then 1. Each portion that ended is in the file LOG. The same command later, also after a
# kill, does those that are not. It needs `pciex` and GNU parallel on the path.
#
# Options of parallel stand in the variable PARALLEL: PARALLEL=--bar, or PARALLEL='--sshlogin 8/first,8/second,:' for more
# machines, which need `pciex` on the path as well. If a machine is lost, its portions are tried on the others.
set -eu
unset CDPATH
fail() {
    echo "sweep.sh: $*" >&2
    exit 2
}
if [ $# -lt 3 ]; then
    echo "usage: sweep.sh LOG FIRST LAST [OPTION..]" >&2
    exit 2
fi
log=$1 first=$2 last=$3
shift 3
for seed in "$first" "$last"; do
    case $seed in
        '' | *[!0-9]* | 0?*) fail "'$seed' is no seed: FIRST and LAST are decimal numbers" ;;
    esac
done
printf '%s\n' "$first" "$last" | sort -n -C || fail "there are no seeds from $first to $last"
[ $# -gt 0 ] || set -- --events 1000 --lose 8 --corrupt 9
for word in "$@"; do
    case $word in
        '' | *[!A-Za-z0-9=-]*) fail "'$word' is no option of pciex sweep" ;;
    esac
done
command -v pciex > /dev/null || fail "there is no pciex on the path"
parallel --version 2> /dev/null | grep -q '^GNU parallel' || fail "there is no GNU parallel on the path (Debian: apt-get install parallel)"

# portions: FIRST..LAST of each portion, in order. Seeds are text here, since awk rounds large numbers.
portions() {
    seq "$first" "$last" | awk '
        NR % 100 == 1 { first = $0 }
        { last = $0 }
        NR % 100 == 0 { print first ".." last }
        END { if (NR % 100) print first ".." last }'
}

# repeats PORTION OPTION..: the command for one portion.
repeats() {
    seeds=$1
    shift
    echo "pciex sweep --workers 1 --seeds $seeds $*"
}

# logged CONDITION: PORTION HOST of each line of LOG for which this condition of awk holds, the least first.
logged() {
    awk "NR > 1 && NF && ($1)" "$log" | sed 's/^[^\t]*\t\([^\t]*\)\t.* --seeds \([0-9.]*\) .*/\2 \1/' | sort -n
}

# A LOG of another sweep would have other commands, or another portion at that place.
if [ -s "$log" ]; then
    place=$(awk -F '\t' 'NR == 2 { print $1 }' "$log")
    if [ -n "$place" ]; then
        portion=$(portions | sed -n "${place}p")
        [ -n "$portion" ] && awk 'NR == 2' "$log" | grep -qF "$(repeats "$portion" "$@") >" || fail "$log is of another sweep"
    fi
    # 255 is the status of ssh where the machine was lost: these portions haven't ended.
    awk -F '\t' '$7 != 255' "$log" > "$log.new"
    cat "$log.new" > "$log"
    rm -f "$log.new"
fi
case ${PARALLEL:-} in
    *-S* | *--sshlogin*) tries=3 ;;
    *) tries=1 ;;
esac
# Those that run already go on to their end (`soon`): none is lost, and the portions below a failing one have all ended.
status=0
portions | parallel --joblog "$log" --resume --retries $tries --halt soon,fail=1 "$(repeats {} "$@") > /dev/null" || status=$?
failing=$(logged '$7 != 0 && $7 != 255 || $8 != 0' | head -n 1)
if [ -n "$failing" ]; then
    portion=${failing% *}
    case $failing in
        *' :') where= ;;
        *) where=" on ${failing#* }" ;;
    esac
    # Its first failing seed is the same on every machine.
    status=0
    said=$(pciex sweep --workers 1 --seeds "$portion" "$@") || status=$?
    [ $status -ne 2 ] || exit 2
    seed=$(echo "$said" | sed -n '1s/^failed \([0-9]*\) .*/\1/p')
    if [ -n "$seed" ]; then
        echo "seed $seed fails$where. This repeats it:"
        echo "$said" | sed -n 2p
    else
        echo "a seed of $portion fails$where. This repeats it:"
        repeats "$portion" "$@"
    fi
    exit 1
fi
ended=$(logged '$7 == 0 && $8 == 0' | sort -u | wc -l)
wanted=$(portions | wc -l)
if [ $status -ne 0 ] || [ "$ended" -ne "$wanted" ]; then
    echo "sweep.sh: $ended of $wanted portions have ended; the same command does the others" >&2
    exit 3
fi
echo "seeds $first to $last: each is ok"
