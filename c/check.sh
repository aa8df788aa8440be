#!/bin/sh
# Builds the library for C, compares its functions with the header's, compiles and runs the examples and compares what they
# print with the files of examples/; then the examples under valgrind, the Rust wrapper's tests, the Python package, the
# SystemVerilog and SystemC testbenches, the device in QEMU with the dissector of its packets, and what the pages show. If
# PCIEX_C names a folder with libpciex_c.a, it takes that archive and builds none; KIT_C can name the folder of the
# toolchain's liblibc_c.a. Over an optimized build of plain Rust it leaves out valgrind and the Rust wrapper
# (docs/plain-rust.md says why). It says what it leaves out, for this or since a tool is missing. Fails if one of them fails.
unset CDPATH
cd "$(dirname "$0")/.." || exit 1
. scripts/left_out.sh
say() { echo "library for C: $*"; }
if command -v rt > /dev/null; then
    home=$(dirname "$(rt doc)")
    : "${KIT_C:=$home/c}"
fi
if ! command -v cc > /dev/null || [ -z "${PCIEX_C:-$home}" ] || [ -z "$KIT_C" ]; then
    left_out "the library for C" "rt, or no cc"
    exit 0
fi
room=$(mktemp -d) || exit 1
trap 'rm -rf "$room"' EXIT
trap 'exit 1' HUP INT TERM
folder=$(realpath "${PCIEX_C:-crates/pciex_c/out}")
kit=$(realpath "$KIT_C")

# over_the_gate: builds the archive over the libraries that `rt ci` proved and left, which have no stamp, so that `rt lib`
# would prove each of them once more. Only the exports are proved again.
over_the_gate() {
    set -- --extern "std=$home/rlibs/std.rlib"
    for name in $(sed -n 's/^pciex_c staticlib://p' crates.txt); do
        if [ -d "crates/$name" ]; then
            set -- "$@" --extern "$name=$PWD/crates/$name/out/rlib/$name.rlib"
        else
            set -- "$@" --extern "$name=$home/rlibs/$name.rlib"
        fi
    done
    for built in crates/*/out/rlib; do
        set -- "$@" -L "dependency=$PWD/$built"
    done
    cd crates/pciex_c && "$home/bin/rattle" build --crate-name pciex_c src/lib.rt "$@" -L "dependency=$home/rlibs" \
        --antt-project "$home/rattle/logic/antt-project.json" --logic-built "$home/logic_built" --links pciex_c= \
        --crate-type staticlib --toolchain "$home/toolchain" --backend llvm -o out/libpciex_c.a
}
build() {
    if [ -d crates/c_fabric/out/rlib ] && [ ! -e crates/c_fabric/out/rlib/stamp ]; then
        mkdir -p "$folder" && (over_the_gate)
    else
        (cd crates/pciex_c && rt lib)
    fi
}
if [ -z "$PCIEX_C" ] && ! build > "$room/log" 2>&1; then
    tail -n 20 "$room/log"
    say "the library isn't proved and built"
    exit 1
fi
runs=0
failed=0
sh c/prototypes.sh "$folder/libpciex_c.a" || failed=1

# wants WHAT STATUS OUTPUT INPUT WORD..: whether a run on the input has this exit status and prints this file.
wants() {
    what=$1 status=$2 output=$3 input=$4
    shift 4
    "$@" < "$input" > "$room/output" 2> "$room/errors"
    got=$?
    runs=$((runs + 1))
    if [ $got -eq 124 ] || [ $got -eq 137 ]; then
        say "$what: no end within its time"
        failed=1
    elif [ $got -ne "$status" ] || ! cmp -s "$output" "$room/output"; then
        say "$what: status $got, and not $status, or another text"
        tail -n 3 "$room/output" "$room/errors"
        failed=1
    fi
}

# tells WHAT TEXT: whether the last run wrote this line on its error stream.
tells() {
    runs=$((runs + 1))
    if [ "$(cat "$room/errors")" != "$2" ]; then
        say "$1: it told '$(cat "$room/errors")', and not '$2'"
        failed=1
    fi
}

# passes WHAT WORD..: whether a run succeeds. If not, prints the end of its output, and WHAT.
passes() {
    what=$1
    shift
    runs=$((runs + 1))
    "$@" > "$room/log" 2>&1 && return
    tail -n 20 "$room/log"
    say "$what"
    failed=1
}

for name in device history fabric script check search fields differ monitor crc endpoint linked; do
    if ! cc -Wall -Wextra -Werror -std=c99 -O2 -o "$room/$name" c/examples/$name.c "$folder/libpciex_c.a" "$kit/liblibc_c.a"; then
        say "examples/$name.c isn't compiled and linked"
        exit 1
    fi
done
if has c++ "the header as C++"; then
    echo '#include "pciex_differ.h"' > "$room/header.cpp"
    echo 'int main() { pciex_device device = PCIEX_NONE; pciex_device_free(&device); }' >> "$room/header.cpp"
    if ! c++ -Wall -Wextra -Werror -Ic -o "$room/header" "$room/header.cpp" "$folder/libpciex_c.a" "$kit/liblibc_c.a"; then
        say "the header isn't compiled as C++"
        failed=1
    fi
fi

# examples UNDER..: the examples, run under these words.
examples() {
    wants "device on packets.txt" 0 examples/packets.out examples/packets.txt "$@" "$room/device"
    wants "history" 0 "$room/history.out" /dev/null "$@" "$room/history"
    wants "fields" 0 c/examples/fields.out /dev/null "$@" "$room/fields"
    wants "differ" 0 c/examples/differ.out /dev/null "$@" "$room/differ"
    wants "crc" 0 c/examples/crc.out /dev/null "$@" "$room/crc"
    wants "monitor" 0 c/examples/monitor.out /dev/null "$@" "$room/monitor"
    wants "endpoint" 0 c/examples/endpoint.out /dev/null "$@" "$room/endpoint"
    wants "linked" 0 c/examples/linked.out /dev/null "$@" "$room/linked"
    wants "fabric on lost_ack.txt" 0 examples/lost_ack.out examples/lost_ack.txt "$@" "$room/fabric"
    [ $# -gt 0 ] || tells "fabric on lost_ack.txt" "2 in the history, quiet, explained"
    for name in first_script write_passes_read credits stopped_link; do
        wants "fabric on $name.txt" 0 examples/$name.out examples/$name.txt "$@" "$room/fabric"
    done
    wants "fabric on credits_used_up.txt" 1 examples/credits_used_up.out examples/credits_used_up.txt "$@" "$room/fabric"
    for name in lost_ack write_passes_read credits stopped_link; do
        wants "script on $name.txt" 0 examples/$name.out examples/$name.txt "$@" "$room/script"
    done
    wants "script on credits_used_up.txt" 1 examples/credits_used_up.out examples/credits_used_up.txt "$@" "$room/script"
    wants "check on trace.txt" 0 "$room/ok" examples/trace.txt "$@" "$room/check"
    wants "check on a trace with a wrong reply" 1 "$room/flaw" "$room/flawed" "$@" "$room/check"
    wants "check on stale_read.txt" 0 "$room/ok" examples/stale_read.txt "$@" "$room/check"
    wants "check on stale_read.txt, clocked" 1 "$room/clock" examples/stale_read.txt "$@" "$room/check" --clocked
    wants "search on a log" 0 "$room/found" "$room/log" "$@" "$room/search"
    wants "search on a log with a wrong reply" 1 "$room/none" "$room/lie" "$@" "$room/search"
    wants "search on a torn read" 1 "$room/none_2" "$room/torn" "$@" "$room/search"
    wants "search on a torn read in pieces" 0 "$room/pieces" "$room/torn" "$@" "$room/search" 4
    wants "search in pieces of 5 bytes" 2 "$room/wrong" "$room/torn" "$@" "$room/search" 5
    wants "search on no log" 1 "$room/head" /dev/null "$@" "$room/search"
}
printf '16 16 bytes, 2 entries\n1 0 add 40 07000000\n1 1 read 40 1 F 0\n7 at 40h\n' > "$room/history.out"
echo ok > "$room/ok"
echo 'flaw 13 Clock 2' > "$room/clock"
printf 'pciex-log 1\nmemory 0 4096 64\nsub 1 0 add 40 07000000\nans 1 0 data 00000000\nend\n' > "$room/log"
sed 's/data 00/data 07/' "$room/log" > "$room/lie"
printf 'pciex-trace 2\nmemory 0 4096 64\nsub 1 0 0 add 40 07000000\nans 1 0 1 data 00000000\nhistory\nent 1 0 add 40 07000000\nend\n' > "$room/found"
echo "none 1" > "$room/none"
echo "none 2" > "$room/none_2"
echo "fault 1 Head" > "$room/head"
echo "code 2012" > "$room/wrong"
printf 'pciex-log 1\nmemory 0 4096 64\nsub 1 0 write 40 F F 0100000002000000\nsub 2 0 read 40 2 F F\n' > "$room/torn"
printf 'ans 2 0 data 0000000002000000\nend\n' >> "$room/torn"
printf 'pciex-trace 2\nmemory 0 4096 64\nsub 1 0 0 write 40 F 0 01000000\nsub 1 1 0 write 44 F 0 02000000\n' > "$room/pieces"
printf 'sub 2 0 0 read 40 1 F 0\nsub 2 1 1 read 44 1 F 0\nans 2 0 1 data 00000000\nans 2 1 4 data 02000000\n' >> "$room/pieces"
printf 'history\nent 2 0 read 40 1 F 0\nent 1 0 write 40 F 0 01000000\nent 1 1 write 44 F 0 02000000\n' >> "$room/pieces"
printf 'ent 2 1 read 44 1 F 0\nend\n' >> "$room/pieces"
echo "flaw 10 Reply 2" > "$room/flaw"
sed 's/^ans 1 0 2 data 01020304/ans 1 0 2 data 00000000/' examples/trace.txt > "$room/flawed"
examples

# Swaps and additions that stay unanswered, 65 of six requesters, and reads that contradict each other: each order of them is
# one to be tried, and the work ends the search before its 1,000,000 choices.
awk 'BEGIN {
    print "pciex-log 1"
    print "memory 0 4096 64"
    for (k = 0; k < 65; k++) printf "sub %d %d %s 0 %02X000000\n", k % 6 + 1, int(k / 6), k % 2 ? "add" : "swap", k + 1
    for (k = 0; k < 3; k++) printf "sub 7 %d read 0 1 F 0\nans 7 %d data %s000000\n", k, k, k == 1 ? "09" : "05"
    print "end"
}' > "$room/open"
echo "work 300000000" > "$room/work"
wants "search on 65 open AtomicOps" 3 "$room/work" "$room/open" timeout 1800 "$room/search"

# What a search says on standard error is what the program says there: the one beside the archive, or that of program.sh.
program=$folder/pciex
[ -x "$program" ] || program=$(sh scripts/program.sh 2> /dev/null)
if [ -n "$program" ]; then
    for log in log lie torn; do
        "$program" search < "$room/$log" > "$room/answer" 2> "$room/reasons"
        wants "search on $log" $? "$room/answer" "$room/$log" "$room/search"
        tells "search on $log" "$(cat "$room/reasons")"
    done
else
    left_out "the reasons of a search from C" "program that is built"
fi

# Large inputs: a fabric takes 100,486 lines and prints what the program prints; a trace of a memory of 1 MiB is checked.
awk -v rounds=99 -f bench/script.awk > "$room/long_script"
if [ -n "$program" ]; then
    "$program" step < "$room/long_script" > "$room/results"
    wants "fabric on $(wc -l < "$room/long_script") lines" 0 "$room/results" "$room/long_script" "$room/fabric"
else
    left_out "a fabric in C on a long script" "program that is built"
fi
sh scripts/large_inputs.sh "$room"
echo "flaw 10 Reply 100000" > "$room/far_flaw"
echo "fault 100 Line" > "$room/far_fault"
sed '100s/.*/no line/' "$room/explained_trace" > "$room/faulty_trace"
wants "check on a fault in line 100" 1 "$room/far_fault" "$room/faulty_trace" "$room/check"
wants "check on 1 MiB" 0 "$room/ok" "$room/explained_trace" "$room/check"
wants "check on a wrong reply at place 100,000" 1 "$room/far_flaw" "$room/flawed_trace" "$room/check"

# An optimized build of plain Rust: its archive has Rust's library, and not as a part of its own.
optimized=
case $(ar t "$folder/libpciex_c.a" 2> /dev/null | grep '^std-\|^compiler_builtins-') in
    *std-*) ;;
    compiler_builtins-*) optimized=1 ;;
esac
valgrind=
under="the examples, the Python package and the DPI functions under valgrind"
if [ -n "$optimized" ]; then
    say "not over an optimized archive: $under"
elif has valgrind "$under"; then
    # Each run has five minutes of a processor. The longest takes half of one over an archive that isn't optimized.
    valgrind="timeout 3600 prlimit --cpu=300 valgrind -q --error-exitcode=99 --leak-check=full"
    # shellcheck disable=SC2086
    examples $valgrind
fi

# An endpoint under a root complex apart from the library, with each allocation refused, and as lspci sees it; and one behind
# its link, under a peer with a data link layer of its own, and under one that breaks the rules; and all other calls with each
# allocation refused.
# endpoint_test FOLDER NAME WORD..: compiles FOLDER/NAME.c, linked with these words, and runs it. Then a run of 500 requests,
# alone and under valgrind, which has to print the same.
endpoint_test() {
    test=$1-$2 source=c/$1/$2
    shift 2
    passes "$source.c isn't compiled and linked" cc -Wall -Wextra -Werror -std=c99 -O2 -Ic -o "$room/$test" "$source.c" \
        "$folder/libpciex_c.a" "$kit/liblibc_c.a" "$@"
    wants "$source.c" 0 "$source.out" /dev/null "$room/$test"
    [ -n "$valgrind" ] || return
    "$room/$test" 500 > "$room/short"
    # shellcheck disable=SC2086
    wants "$source.c under valgrind" 0 "$room/short" /dev/null $valgrind "$room/$test" 500
}
refusing=-Wl,--wrap=malloc,--wrap=calloc,--wrap=realloc,--wrap=posix_memalign
endpoint_test endpoint root_complex
endpoint_test endpoint refused_memory $refusing
endpoint_test linked first
endpoint_test linked peer
endpoint_test linked broken_rules
endpoint_test linked refused_memory $refusing
endpoint_test calls refused_memory $refusing
if lspci --version 2> /dev/null | grep -q ' 3\.9'; then
    "$room/endpoint-root_complex" dump > "$room/registers"
    wants "lspci on the registers" 0 c/endpoint/lspci.out /dev/null lspci -n -vvv -F "$room/registers"
else
    left_out "the registers of an endpoint" "lspci 3.9"
fi

export PCIEX_C="$folder" KIT_C="$kit" CARGO_TARGET_DIR="$room/target" PYTHONDONTWRITEBYTECODE=1
rust_wrapper=
if [ -n "$optimized" ]; then
    say "not over an optimized archive: the Rust wrapper"
elif has cargo "the Rust wrapper"; then
    rust_wrapper=1
    passes "the Rust wrapper's tests fail" sh -c 'cd c/rust && cargo test --offline --locked -q'
fi

# install_python: links the shared object and puts the package where `site` says: by pip, or as it is.
install_python() {
    site=$room/site
    cp -r c/python "$room/python"
    passes "no shared object is linked" sh "$room/python/link.sh"
    for python in python3 /usr/bin/python3; do
        if "$python" -c 'import setuptools, wheel, pip' 2> /dev/null; then
            passes "pip installs no Python package" "$python" -m pip install -q --root-user-action=ignore \
                --no-build-isolation --no-deps --target "$site" "$room/python"
            return
        fi
    done
    python=python3 site=$room/python/src
    left_out "pip's installation of the Python package" "python3 with pip, setuptools and wheel"
}

# python_under_valgrind: the tests of each call. No error may name the library; Python has some of its own.
python_under_valgrind() {
    interpreter=$("$python" -c 'import sys; print(sys.executable)')
    PYTHONMALLOC=malloc timeout 3600 prlimit --cpu=300 valgrind --leak-check=full --log-file="$room/valgrind" "$interpreter" -m unittest -q test_calls &&
        grep -q "LEAK SUMMARY" "$room/valgrind" && ! grep "libpciex" "$room/valgrind"
}
if has python3 "the Python package"; then
    install_python
    export PYTHONPATH="$site:$PWD/c/python/tests"
    passes "the Python package's tests fail" "$python" -m unittest discover -s c/python/tests
    wants "check.py on trace.txt" 0 "$room/ok" examples/trace.txt "$python" c/python/examples/check.py
    wants "check.py on a trace with a wrong reply" 1 "$room/flaw" "$room/flawed" "$python" c/python/examples/check.py
    if [ -n "$valgrind" ]; then
        passes "valgrind finds something in the Python package's library, or it has no end" python_under_valgrind
    fi
fi

# long_testbench: judges 20,000 requests in all ways of judge-your-own-device.md: each completion, the trace, and a search
# for a history.
long_testbench() {
    printf 'scoreboard: 0 of 20000 requests answered wrong\ntrace: ok\nsearch: found\n' > "$room/long"
    now=$(date +%s%N)
    wants "a testbench of 20,000 requests" 0 "$room/long" /dev/null sh -c "'$room/sv/scoreboard/scoreboard' \
        +requests=20000 +search '+trace=$room/long_trace' | grep -v 'Verilog \$finish'"
    say "a testbench of 20,000 requests in $((($(date +%s%N) - now) / 1000000)) ms"
}
if has verilator "SystemVerilog"; then
    passes "the SystemVerilog testbench fails" make -C c/sv/test "OUT=$room/sv"
    long_testbench
    if [ -n "$valgrind" ]; then
        passes "valgrind finds something in the DPI functions, or they have no end" sh -c "cd '$room/sv' && $valgrind calls/calls"
    fi
fi
has_systemc=
printf '#include <systemc>\nint sc_main(int, char **) { return 0; }\n' > "$room/probe.cpp"
if c++ -std=c++17 -o "$room/probe" "$room/probe.cpp" -lsystemc 2> /dev/null; then
    has_systemc=1
    passes "the SystemC testbench fails" make -C c/systemc/test "OUT=$room/tlm"
else
    left_out "SystemC" "libsystemc"
fi

# The device in QEMU: test.sh says what it leaves out.
passes "the device in QEMU fails" env "LINK=$folder/libpciex_c.a $kit/liblibc_c.a" sh c/qemu/test.sh "$room"
grep '^left out: ' "$room/log"
say "the device in QEMU: $(sed -n 's/^qemu: //p' "$room/log" | tr '\n' ';')"

# ---- what the pages show

# block PAGE HEADING LANGUAGE: the lines of the first block of code in that language below the heading.
block() {
    awk -v heading="$2" -v fence="\`\`\`$3" '
        $0 == heading { on = 1 }
        on && !inside && $0 == fence { inside = 1; next }
        inside && /^```$/ { exit }
        inside' "docs/$1"
}

# fill FILE MARK PAGE HEADING LANGUAGE: the file with that block of the page in place of the line with the mark alone.
fill() {
    block "$3" "$4" "$5" > "$room/lines"
    awk -v mark="$2" -v lines="$room/lines" '
        $1 == mark && NF == 1 { sub(mark, ""); while ((getline line < lines) > 0) print $0 line; next }
        1' "$1"
}

# with_hook HARNESS HEADING LANGUAGE: the harness with the hook of the page in that language.
with_hook() {
    fill "c/hooks/$1" HOOK judge-your-own-device.md "### $2" "$3"
}

# finds LANGUAGE WORD..: whether the hook in that language finds what the device loses.
finds() {
    language=$1
    shift
    wants "the hook in $language" 0 c/hooks/hook.out /dev/null "$@"
}

# build_hook NAME WORD..: compiles room/NAME with these words for the compiler, and links it.
build_hook() {
    name=$1
    shift
    passes "$name isn't compiled with what the page shows" "$@" -Wall -Wextra -Werror -Ic -Ic/systemc -o "$room/${name%.*}" \
        "$room/$name" "$folder/libpciex_c.a" "$kit/liblibc_c.a" $systemc
}

# rust_hook: the hook in Rust as a program over c/rust.
rust_hook() {
    mkdir -p "$room/hook_rs/src"
    cp c/hooks/hook.rs "$room/hook_rs/src/main.rs"
    printf '[package]\nname = "hook"\nversion = "1.0.0"\nedition = "2021"\n\n[dependencies]\npciex = { path = "%s" }\n' \
        "$PWD/c/rust" > "$room/hook_rs/Cargo.toml"
    (cd "$room/hook_rs" && cargo build --offline -q)
}

# shows PAGE SOURCE..: whether each block of SystemVerilog of the page stands in these sources, and each block of what is
# printed in one of their files .out.
shows() {
    page=$1
    shift
    cat "$@" | sed 's/^ *//' > "$room/sources"
    sed 's/^ *//' "docs/$page" | awk -v sources="$room/sources" '
        BEGIN { while ((getline line < sources) > 0) all = all line "\n" }
        /^```$/ && inside { if (index(all, text) == 0) { print "not in the sources: " text; bad = 1 } inside = 0; next }
        /^```systemverilog$/ || (/^```$/ && is_printed) { inside = 1; text = ""; count++; next }
        inside { text = text $0 "\n"; next }
        /^```/ { skipped = !skipped; next }
        NF { is_printed = 0 }
        /:$/ && /(prints|find it)/ { is_printed = 1 }
        END { exit bad || count == 0 }'
}

systemc=
block use-from-c.md "## A device that answers" c > "$room/first.c"
echo "16 bytes, the word is 7" > "$room/first.out"
build_hook first.c cc -std=c99
wants "the first program of use-from-c.md" 0 "$room/first.out" /dev/null "$room/first"
block bring-it-up.md "## A session in C" c > "$room/session.c"
awk '/^## / { on = $0 == "## A session in C" } on && /^[0-9A-F]+$/' docs/bring-it-up.md > "$room/session.out"
build_hook session.c cc -std=c99
wants "the session of bring-it-up.md" 0 "$room/session.out" /dev/null "$room/session"
awk '/^## / { on = $0 == "## Behind a link, in C" } on && /^(dllp|packet) [0-9A-F]+$/' docs/bring-it-up.md > "$room/link.out"
wants "the link of bring-it-up.md" 0 "$room/link.out" /dev/null "$room/linked-first"
block qemu.md "## Your own emulator" c > "$room/emulator.c"
build_hook emulator.c cc -std=gnu11 -Ic/qemu c/qemu/ports.c c/qemu/records.c
echo 33445566 > "$room/emulator.out"
mkdir "$room/emulated"
wants "the emulator of qemu.md" 0 "$room/emulator.out" /dev/null sh -c "cd '$room/emulated' && ../emulator"
wants "check on the emulator's trace" 0 "$room/ok" "$room/emulated/trace" "$room/check"
passes "search finds no history for the emulator's log" sh -c "'$room/search' < '$room/emulated/log'"
with_hook hook.c C c > "$room/hook_c.c"
build_hook hook_c.c cc -std=c99
finds C "$room/hook_c"
if command -v c++ > /dev/null; then
    cp c/hooks/hook.cpp "$room/hook_cpp.cpp"
    build_hook hook_cpp.cpp c++ -std=c++17
    finds C++ "$room/hook_cpp"
fi
if [ -n "$rust_wrapper" ]; then
    passes "the hook in Rust isn't compiled" rust_hook
    finds Rust "$CARGO_TARGET_DIR/debug/hook"
fi
if command -v python3 > /dev/null; then
    with_hook hook.py Python python > "$room/hook.py"
    finds Python "$python" "$room/hook.py"
fi
if command -v verilator > /dev/null; then
    with_hook hook_tb.sv SystemVerilog systemverilog > "$room/hook_tb.sv"
    passes "the hook in SystemVerilog isn't compiled" make -C c/sv/test "OUT=$room/sv" "HOOK=$room/hook_tb.sv" hook
    finds SystemVerilog sh -c "'$room/sv/hook/hook' | grep -v 'Verilog \$finish'"
    passes "systemverilog.md shows other text than c/sv/test" shows systemverilog.md c/sv/test/*.sv c/sv/test/*.out
fi
if [ -n "$has_systemc" ]; then
    systemc=-lsystemc
    cp c/hooks/hook_tlm.cpp "$room/hook_tlm.cpp"
    build_hook hook_tlm.cpp c++ -std=c++17
    finds SystemC env SYSTEMC_DISABLE_COPYRIGHT_MESSAGE=1 "$room/hook_tlm"
    fill c/hooks/two_adders.cpp SOCKETS use-from-c.md "## SystemC" cpp > "$room/with_sockets.cpp"
    fill "$room/with_sockets.cpp" ADDITION use-from-c.md "### An AtomicOp" cpp > "$room/two_adders.cpp"
    build_hook two_adders.cpp c++ -std=c++17
    echo 2 > "$room/two"
    wants "SystemC in use-from-c.md" 0 "$room/two" /dev/null env SYSTEMC_DISABLE_COPYRIGHT_MESSAGE=1 "$room/two_adders"
fi

say "$runs runs, $(wc -c < "$folder/libpciex_c.a") bytes"
exit $failed
