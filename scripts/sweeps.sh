#!/bin/sh
# Tries examples/sweep.sh: sweeps.sh [PROGRAM], that of program.sh if none is named. A sweep over 100 portions of 100 seeds,
# on all processors, is ended by `kill -9` in the middle; the same command then does the other portions: each stands once in
# the log, each is ok, and none that stood there was begun again. Then a seed in each of two portions fails, and the least of
# them is printed with the command that repeats it. A sweep of nothing is an error. Last, if there is sshd, a sweep over two
# machines, which are two sshd on this one: one is ended by `kill -9`, and each portion stands once in the log and is ok.
# Without GNU parallel nothing is run, and that is told.
unset CDPATH
pciex=$(sh "$(dirname "$0")/program.sh" "$@") || exit
cd "$(dirname "$0")/.." || exit 1
say() { echo "sweeps: $*"; }
for tool in parallel setsid pkill; do
    command -v $tool > /dev/null && continue
    echo "left out: sweeps, since there is no $tool"
    exit 0
done
room=$(mktemp -d) || exit 1
made=
machines=
trap 'lose $machines; rm -rf "$room"; [ -z "$made" ] || rmdir /run/sshd' EXIT
trap 'exit 1' HUP INT TERM
failed=0

# wrong WHAT: tells what isn't as it should be.
wrong() {
    say "$*"
    failed=1
}

# lose PROCESS..: ends these processes and all below them.
lose() {
    for process in "$@"; do
        # shellcheck disable=SC2046 # one number a word
        lose $(pgrep -P "$process")
        kill -9 "$process" 2> /dev/null
    done
}

# The program, which notes each portion that it begins, and says that a seed fails in two of them if the file $room/fails is
# there.
mkdir "$room/bin"
cat > "$room/bin/pciex" << end
#!/bin/sh
if [ "\$1" = sweep ]; then
    echo "\$5" >> "$room/begun"
    case \$5 in 201..300) seed=223 ;; 301..400) seed=331 ;; *) seed= ;; esac
    if [ -e "$room/fails" ] && [ -n "\$seed" ]; then
        printf 'failed %s fault 1 Head\npciex generate --seed %s | pciex step --trace | pciex check\nok 0\n' \$seed \$seed
        exit 1
    fi
fi
exec "$pciex" "\$@"
end
chmod +x "$room/bin/pciex"
PATH=$room/bin:$PATH
export PATH
log=$room/log

# ended: the numbers of the portions in the log, in order.
ended() {
    awk 'NR > 1 && NF { print $1 }' "$log" 2> /dev/null | sort -n
}

setsid sh examples/sweep.sh "$log" 1 10000 > "$room/output" 2>&1 &
sweep=$!
while kill -0 $sweep 2> /dev/null && [ "$(ended | wc -l)" -lt 20 ]; do sleep 0.05; done
pkill -9 -s $sweep
wait $sweep 2> /dev/null
cp "$log" "$room/first_log"
ended > "$room/first"
before=$(wc -l < "$room/first")
{ [ "$before" -ge 20 ] && [ "$before" -lt 100 ]; } || wrong "the kill came at $before of 100 portions"
sh examples/sweep.sh "$log" 1 10000 > "$room/output" 2> "$room/errors"
status=$?
{ [ $status -eq 0 ] && [ "$(cat "$room/output")" = "seeds 1 to 10000: each is ok" ]; } || wrong "status $status, $(tail -n 3 "$room/output" "$room/errors")"
seq 100 > "$room/all"
ended | cmp -s - "$room/all" || wrong "a portion is lost, or stands twice in the log"
head -c "$(wc -c < "$room/first_log")" "$log" | cmp -s - "$room/first_log" || wrong "the log of the first part was changed"
sort -n "$room/begun" | uniq -d > "$room/twice"
sed -n 's/.* --seeds \([0-9.]*\) .*/\1/p' "$room/first_log" > "$room/first"
if [ -n "$(sort "$room/twice" "$room/first" | uniq -d)" ]; then
    wrong "a portion that had ended was begun again"
fi
again=$(wc -l < "$room/twice")

rm -f "$log"
: > "$room/fails"
sh examples/sweep.sh "$log" 1 1000 --events 100 > "$room/output" 2> "$room/errors"
status=$?
printf 'seed 223 fails. This repeats it:\npciex generate --seed 223 | pciex step --trace | pciex check\n' > "$room/wanted"
{ [ $status -eq 1 ] && cmp -s "$room/output" "$room/wanted"; } || wrong "a failing seed: status $status, $(cat "$room/output")"
sh examples/sweep.sh "$log" 1 1000 --events 99 > /dev/null 2> "$room/errors"
status=$?
{ [ $status -eq 2 ] && grep -q 'is of another sweep$' "$room/errors"; } || wrong "the log of another sweep is taken"

# refused WHAT WORD..: whether a sweep with these words has status 2, tells why, and says ok of nothing.
refused() {
    what=$1
    shift
    sh examples/sweep.sh "$room/refused" "$@" > "$room/output" 2> "$room/errors"
    status=$?
    { [ $status -eq 2 ] && [ ! -s "$room/output" ] && grep -q '^sweep.sh: ' "$room/errors"; } || wrong "$what: status $status, $(cat "$room/output")"
}
refused "words that are no seeds" a b
refused "a sweep of nothing" 5 3
refused "a wrong last seed" 1 1x
refused "an option that is a command" 1 2 --events "10' ; echo injected; '"
rm -f "$room/fails" "$log"
sh examples/sweep.sh "$log" 18446744073709551614 18446744073709551615 --events 10 > "$room/output" 2>&1 &&
    sh examples/sweep.sh "$log" 18446744073709551614 18446744073709551615 --events 10 >> "$room/output" 2>&1
[ "$(grep -c 'each is ok$' "$room/output")" -eq 2 ] || wrong "the greatest seeds: $(cat "$room/output")"

# machine NAME PORT: starts sshd as the machine NAME, whose program notes its portions in the same file.
machine() {
    cat > "$room/$1.sshd" << end
ListenAddress 127.0.0.1
Port $2
HostKey $room/host_key
AuthorizedKeysFile $room/key.pub
StrictModes no
UsePAM no
PidFile none
SetEnv PATH=$PATH
end
    printf 'Host %s\n  HostName 127.0.0.1\n  Port %s\n' "$1" "$2" >> "$room/ssh"
    "$sshd" -D -f "$room/$1.sshd" -E "$room/$1.log" &
    machines="$machines $!"
}

# two_machines: a sweep on both, of which the first is lost in the middle.
two_machines() {
    rm -f "$log" "$room/begun"
    PARALLEL='--sshlogin 2/first,2/second' PARALLEL_SSH="ssh -F $room/ssh" sh examples/sweep.sh "$log" 1 6000 \
        > "$room/output" 2> "$room/errors" &
    sweep=$!
    while kill -0 $sweep 2> /dev/null && [ "$(ended | wc -l)" -lt 12 ]; do sleep 0.05; done
    # shellcheck disable=SC2086
    lose ${machines% *}
    wait $sweep
    status=$?
    # What the shell of the lost machine says of its processes is no matter of the sweep's.
    { [ $status -eq 0 ] && [ "$(cat "$room/output")" = "seeds 1 to 6000: each is ok" ]; } || wrong "two machines: status $status, $(tail -n 3 "$room/output" "$room/errors")"
    seq 60 > "$room/all"
    ended | cmp -s - "$room/all" || wrong "two machines: a portion is lost, or stands twice in the log"
    on_first=$(grep -c "$(printf '\tfirst\t')" "$log")
    { [ "$on_first" -ge 1 ] && [ "$on_first" -lt 59 ]; } || wrong "two machines: the first did $on_first of 60 portions"
    shared="60 portions on two machines, of which one was lost after $on_first"
}
shared="no more machines"
sshd=$(PATH=$PATH:/usr/sbin:/sbin command -v sshd)
for tool in sshd ssh; do
    PATH=$PATH:/usr/sbin:/sbin command -v $tool > /dev/null || echo "left out: sweeps over machines, since there is no $tool"
done
if [ -n "$sshd" ] && command -v ssh > /dev/null; then
    ssh-keygen -q -t ed25519 -N '' -f "$room/key" && ssh-keygen -q -t ed25519 -N '' -f "$room/host_key"
    printf 'StrictHostKeyChecking no\nUserKnownHostsFile /dev/null\nLogLevel ERROR\nIdentitiesOnly yes\nIdentityFile %s\n' "$room/key" > "$room/ssh"
    # sshd of root wants this folder, which the system makes when it starts its own. One that is made here goes at the end.
    [ "$(id -u)" -ne 0 ] || [ -d /run/sshd ] || { mkdir /run/sshd && made=1; }
    port=$((20000 + $$ % 20000))
    machine first $port
    machine second $((port + 1))
    sleep 1
    if ssh -F "$room/ssh" first true 2> "$room/errors" && ssh -F "$room/ssh" second true 2>> "$room/errors"; then
        two_machines
    else
        echo "left out: sweeps over machines, since there is no sshd that starts ($(head -n 1 "$room/errors"))"
    fi
fi

say "100 portions, ended by force after $before and resumed ($again that ran then were begun again), $shared, $([ $failed -eq 0 ] && echo "all as it should be" || echo "not all as it should be")" || failed=1
exit $failed
