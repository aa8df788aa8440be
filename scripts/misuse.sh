#!/bin/sh
# Uses the scripts, the library and its packages in ways that once led them astray, a row for each, and tells each row that
# doesn't hold: misuse.sh [PROGRAM], that of program.sh if none is named. The rows of the library use the one that the gate
# built, or that of the folder PCIEX_C with the toolchain's in KIT_C; if there is none, that is told.
# sweeps.sh has the rows of sweeps that run, c/qemu/test.sh those of QEMU.
unset CDPATH
pciex=$(sh "$(dirname "$0")/program.sh" "$@") || exit
cd "$(dirname "$0")/.." || exit 1
. scripts/left_out.sh
say() { echo "misuse: $*"; }
room=$(mktemp -d) || exit 1
trap 'rm -rf "$room"' EXIT
trap 'exit 1' HUP INT TERM
rows=0
failed=0

# row WHAT WORD..: whether these words have status 0. If not, prints what they print, and WHAT.
row() {
    what=$1
    shift
    rows=$((rows + 1))
    "$@" > "$room/printed" 2>&1 && return
    tail -n 5 "$room/printed"
    say "$what"
    failed=1
}

# ---- each script

# With CDPATH `cd` goes elsewhere, and prints where. dash runs no trap of EXIT at a signal.
for script in .ci/run scripts/*.sh examples/*.sh bench/*.sh c/*.sh c/*/*.sh; do
    row "$script keeps CDPATH" grep -q '^unset CDPATH$' "$script"
    row "$script leaves its temporary files at a signal" awk '
        last ~ /^trap .* EXIT$/ && $0 !~ /^trap .* HUP INT TERM$/ { bad = 1 }
        { last = $0 }
        END { exit bad }' "$script"
done
# What is left out since a tool is missing has one wording, which .ci/run gathers.
worded() {
    ! grep -nE '^[^#]*([Ll]eft out|not (tried|compared|parsed|looked)|skipping)' .ci/run scripts/*.sh examples/*.sh c/*.sh c/*/*.sh |
        grep -vE 'left out: .*, since there is no |left_out |^scripts/misuse.sh|^[.]ci/run:[0-9]*: *echo "left out, |grep .\^left out: '
}
row "a script has another wording for what it leaves out" worded
# without TOOLS SCRIPT WORD..: whether the script, with these words and no other tools than these, says what it leaves out.
without() {
    rm -rf "$room/tools"
    mkdir "$room/tools"
    for tool in $1; do ln -s "$(command -v "$tool")" "$room/tools/$tool" || return 1; done
    shift
    PATH=$room/tools sh "$@" > "$room/said" 2>&1 || { cat "$room/said"; return 1; }
    grep -q '^left out: .*, since there is no ' "$room/said" || { cat "$room/said"; return 1; }
}
for script in scripts/rows.sh scripts/searches.sh scripts/jepsen.sh scripts/endpoint.sh scripts/co_process.sh scripts/log_writers.sh \
    scripts/this_machine.sh scripts/refused_allocations.sh scripts/first_examples.sh "scripts/plain_rust.sh --check" \
    "scripts/page.sh --check" "scripts/completions.sh --check" scripts/sweeps.sh scripts/installed.sh c/check.sh; do
    program=$pciex
    case $script in *installed* | c/*) program= ;; esac
    # shellcheck disable=SC2086 # a word for each, and none for no program
    row "$script doesn't say what it leaves out where tools are missing" without \
        "sh dirname basename realpath mktemp rm ln mkdir cat grep sed awk head tail cut sort cmp diff paste mkfifo timeout seq env sleep wc tr ls id getconf" $script $program
done
other_folder() {
    mkdir -p "$room/else/scripts" "$room/else/c/rust"
    echo 'version = "6.6.6"' > "$room/else/c/rust/Cargo.toml"
    [ "$(CDPATH=$room/else sh scripts/version.sh)" = "$(sh scripts/version.sh)" ]
}
row "CDPATH leads version.sh elsewhere" other_folder
# Words that a script doesn't take are refused before anything is done: an option that there isn't, and a word that is empty.
refuses() {
    timeout 20 sh "$1" "$2" > "$room/said" 2>&1 < /dev/null
    status=$?
    [ $status -eq 2 ] && grep -q '^usage: ' "$room/said" && return
    echo "status $status: $(head -c 200 "$room/said")"
    return 1
}
for script in $(grep -lE '^# .*: [a-z_]*\.sh .*(FILE|FOLDER|PROGRAM|NAME|CRATE|ENGINE|RUNS|PREFIX|--)' scripts/*.sh bench/*.sh examples/*.sh) scripts/install.sh; do
    row "$script takes an option that there isn't" refuses "$script" --no-such-option
    row "$script takes an empty word" refuses "$script" ""
done
# A verdict that can't be printed is none.
closed() {
    ! sh "$@" > /dev/full 2>&1 && ! sh "$@" >&- 2> /dev/null
}
for words in scripts/map.sh scripts/version.sh "scripts/version.sh --check" "scripts/figures.sh --check"; do
    # shellcheck disable=SC2086
    row "$words ends well where its output can't be written" closed $words
done
# A temporary folder goes at a signal: the script is asked for it when its folder is there, and has it no more when it ends.
signal() {
    rm -rf "$room/tmp"
    mkdir "$room/tmp"
    TMPDIR=$room/tmp sh "$@" > /dev/null 2>&1 &
    for _ in $(seq 200); do [ -z "$(ls -A "$room/tmp")" ] || break; sleep 0.05; done
    [ -n "$(ls -A "$room/tmp")" ] || { echo "it made no temporary folder"; return 1; }
    kill $!
    wait $!
    [ $? -eq 1 ] || { echo "it had ended before the signal, or ends otherwise"; return 1; }
    [ -z "$(ls -A "$room/tmp")" ]
}
row "a temporary folder stays after a signal" signal scripts/settles.sh "$pciex"

# For page.sh: a rustc for wasm32 that compiles nothing, before all others on the path.
mkdir -p "$room/wasm/kit/lib/rustlib/wasm32-unknown-unknown"
cat > "$room/wasm/rustc" << 'end'
#!/bin/sh
case $* in
    "--print sysroot") echo "$(dirname "$0")/kit" ;;
    --version) echo "rustc 1.90.0" ;;
    *)
        while [ $# -gt 1 ]; do
            case $1 in
                --crate-name) made=lib/lib$2.rlib ;;
                -o) made=$2 ;;
            esac
            shift
        done
        printf '\0asm' > "$made"
        ;;
esac
end
printf '#!/bin/sh\n' > "$room/wasm/wasm-ld"
chmod +x "$room/wasm/rustc" "$room/wasm/wasm-ld"
with_rustc() {
    (PATH=$room/wasm:$PATH && export PATH && "$@")
}

# ---- a copy of the project in a folder with an odd name, called from elsewhere with relative paths

odd="$room/odd/at k;touch INJECTED'\$(touch INJECTED)#"
mkdir -p "$odd" "$room/odd/here/a folder"
git ls-files -z --cached --others --exclude-standard 2> /dev/null | xargs -0 -r cp --parents -t "$odd" 2> /dev/null
ln -s "$pciex" "$room/odd/here/a folder/program"
at_odd() {
    script=$odd/$1
    shift
    (cd "$room/odd/here" && sh "$script" "$@" < /dev/null)
}
odd_archive() {
    (cd "$odd" && git init -q . && git add -A . && git -c user.name=a -c user.email=a@b commit -q -m a) &&
        mkdir "$room/odd/here/a release" && at_odd scripts/release.sh "a release" --program "a folder/program" &&
        [ -f "$room/odd/here/a release/SHA256SUMS" ] && echo >> "$odd/README.md" && {
        ! at_odd scripts/release.sh "a release" --program "a folder/program"
    }
}
# Line feeds inside of the project's path, and at its end.
line_feeds() {
    for name in 'a
project' 'a project
'; do
        mkdir -p "$room/feed/$name/scripts"
        cp scripts/plain_rust.sh scripts/left_out.sh "$room/feed/$name/scripts"
        sh "$room/feed/$name/scripts/plain_rust.sh" "$room/feed/plain" > "$room/said" 2>&1
        status=$?
        if [ $status -ne 2 ] || [ "$(cat "$room/said")" != "plain rust: the project's path has a line feed" ]; then
            echo "status $status: $(cat "$room/said")"
            return 1
        fi
    done
}
if [ -e "$odd/crates.txt" ]; then
    for words in scripts/map.sh "scripts/version.sh --check" "scripts/figures.sh --check" examples/check.sh c/prototypes.sh; do
        # shellcheck disable=SC2086
        row "in a folder with an odd name: $words" at_odd $words
    done
    for script in pages rows pictures endpoint jepsen log_writers; do
        row "in a folder with an odd name: $script.sh" at_odd scripts/$script.sh "a folder/program"
    done
    row "in a folder with an odd name: completions.sh" at_odd scripts/completions.sh --check "a folder/program"
    row "in a folder with an odd name: install.sh" at_odd scripts/install.sh --program "a folder/program" "a prefix"
    if command -v python3 > /dev/null; then
        row "in a folder with an odd name: plain_rust.sh" at_odd scripts/plain_rust.sh "a folder/plain"
        row "a plain workspace isn't where it was asked for" [ -f "$room/odd/here/a folder/plain/pciex/Cargo.toml" ]
        # One that was interrupted is begun again, and isn't built before.
        head -n 1 "$room/odd/here/a folder/plain/Cargo.toml" > "$room/mark"
        rm -rf "$room/odd/here/a folder/plain/pciex"
        cp "$room/mark" "$room/odd/here/a folder/plain/Cargo.toml"
        row "an interrupted plain_rust.sh can't be run again" at_odd scripts/plain_rust.sh "a folder/plain"
        row "a plain workspace lacks what an interrupted run lacked" [ -f "$room/odd/here/a folder/plain/pciex/Cargo.toml" ]
        row "plain_rust.sh doesn't say that the project's path has a line feed" line_feeds
    fi
    if has python3 "misuse of page.sh" && has make "misuse of page.sh"; then
        row "in a folder with an odd name: page.sh" with_rustc at_odd scripts/page.sh "a folder/page.html"
        row "a page isn't where it was asked for" grep -q '^AGFzbQ==$' "$room/odd/here/a folder/page.html"
    fi
    row "a release has files that no commit has, or isn't made where it was asked for" odd_archive
    row "a name is run as a command" [ -z "$(find "$room/odd" -name INJECTED)" ]
    row "a script writes into the project" [ -z "$(cd "$odd" && git status --porcelain --ignored | grep -v '^ M README.md$')" ]
else
    echo "left out: folders with an odd name, since there is no git"
fi
nothing() {
    ! PATH=$(dirname "$pciex"):$PATH sh examples/sweep.sh "$room/log" "$@"
}
row "a sweep of no seeds is ok" nothing 5 3
row "a sweep of words is ok" nothing a b
row "a sweep up to a word is ok" nothing 1 1x

# ---- install.sh and release.sh

with_space() {
    mkdir "$room/tmp dir"
    TMPDIR="$room/tmp dir" sh scripts/install.sh --program "$pciex" "$room/in st;\$(false)" | grep '^installed: ' &&
        (cd "$room/in st;\$(false)" && xargs rm < share/pciex/files && [ -z "$(find . ! -type d)" ])
}
row "a PREFIX with a space ends install.sh" with_space
linked_prefix() {
    mkdir -p "$room/linked/bin_of_all" "$room/linked/prefix" && ln -s ../bin_of_all "$room/linked/prefix/bin" &&
        sh scripts/install.sh --program "$pciex" "$room/linked/prefix" && [ -x "$room/linked/bin_of_all/pciex" ]
}
row "a PREFIX whose bin is a link gets half of the files" linked_prefix
alike() {
    mkdir "$room/first" "$room/second" && echo "$(printf '%064d' 0)  another" > "$room/first/SHA256SUMS" &&
        first=$(sh scripts/release.sh "$room/first" --changed --program "$pciex") && sleep 1 &&
        grep -q '  another$' "$room/first/SHA256SUMS" && [ "$(wc -l < "$room/first/SHA256SUMS")" -eq 2 ] &&
        second=$(umask 077 && sh scripts/release.sh "$room/second" --changed --program "$pciex") && cmp "$first" "$second" &&
        ! tar -tvzf "$second" | grep -v -e '^-r[w-][x-]r-[x-]r-[x-]' -e '^drwxr-xr-x' -e '^l'
}
row "two archives of one commit differ, or a sum of another archive goes" alike

# ---- engine_alone.sh, in a copy that has no more than it reads

# alone WHAT: whether it refuses the folder WHAT, and leaves all files of the copy as they are.
alone() {
    rm -rf "$room/copy"
    mkdir -p "$room/copy/scripts" "$room/copy/crates/packet_engine/src" "$room/target/crates/packet_engine/src"
    cp scripts/engine_alone.sh "$room/copy/scripts"
    cp crates.txt HANDLES "$room/copy"
    echo mine > "$room/copy/crates/packet_engine/src/mine.rt"
    ln -s "$room/target" "$room/copy/link"
    (cd "$room/copy" && find . -type f -exec cksum {} +) > "$room/before"
    (cd "$room/copy" && ! sh scripts/engine_alone.sh tlp "$1") &&
        (cd "$room/copy" && find . -type f -exec cksum {} +) | cmp - "$room/before" && [ -z "$(find "$room/target" -type f)" ]
}
row "engine_alone.sh writes into the project" alone .
row "engine_alone.sh writes into another project" alone "$room/copy"
row "engine_alone.sh writes through a link" alone link
twice() {
    rm -rf "$room/copy/link"
    (cd "$room/target" && sh "$room/copy/scripts/engine_alone.sh" tlp mine && sh "$room/copy/scripts/engine_alone.sh" tlp mine) &&
        [ -f "$room/target/mine/crates.txt" ]
}
row "engine_alone.sh takes a folder from elsewhere, or once only" twice

# ---- page.sh

# ends STATUS WORD..: whether these words end with this status.
ends() {
    wanted=$1
    shift
    "$@"
    [ $? -eq "$wanted" ]
}
row "page.sh takes two files" ends 2 sh scripts/page.sh a b
row "page.sh takes two programs" ends 2 sh scripts/page.sh --check a b
row "page.sh takes an option as a program" ends 2 sh scripts/page.sh --check -h
# before_work FILE: whether page.sh refuses this file, and doesn't begin its work.
before_work() {
    mkdir -p "$room/none"
    printf '#!/bin/sh\n: > "%s/begun"\n' "$room" > "$room/none/python3"
    chmod +x "$room/none/python3"
    ends 1 env PATH="$room/none:$room/wasm:$PATH" sh scripts/page.sh "$1" && [ ! -e "$room/begun" ]
}
row "page.sh begins for a folder that isn't there" before_work "$room/nowhere/x.html"
row "page.sh begins for a file that is a folder" before_work "$room"
row "page.sh begins for a file that is a device" before_work /dev/null
if has python3 "misuse of page.sh" && has make "misuse of page.sh"; then
    no_rustc() {
        mkdir "$room/bin"
        for tool in sh dirname cat grep find python3 make; do
            ln -s "$(command -v $tool)" "$room/bin/$tool"
        done
        ends 1 env PATH="$room/bin" sh scripts/page.sh "$room/x.html" > "$room/said" 2>&1 &&
            grep -q '^page: no rustc for wasm32: rustup target add' "$room/said"
    }
    row "page.sh doesn't say what it lacks" no_rustc
    row "page.sh leaves its temporary folder after a signal" with_rustc signal scripts/page.sh "$room/x.html"
    row "page.sh leaves a file after a signal" [ ! -e "$room/x.html" ]
fi

# ---- the library

nul_byte() {
    printf 'pciex-trace 2\nmemory 0 4096 64\nhistory\nend\n\000\000junk\n' > "$room/nul"
    printf 'pciex-trace 2\nmemory 0 4096 64\nhistory\nend\n' > "$room/whole"
    echo "typedef unsigned svBitVecVal;" > "$room/svdpi.h"
    cat > "$room/nul.c" << 'end'
#include "sv/dpi_files.h"

int main(int count, char **words)
{
    (void)count;
    return text_of(words[1]) != NULL || text_of(words[2]) == NULL;
}
end
    cc -std=gnu11 -I"$room" -Ic -o "$room/nul_byte" "$room/nul.c" "$library/libpciex_c.a" "$kit/liblibc_c.a" &&
        "$room/nul_byte" "$room/nul" "$room/whole"
}
shared() {
    name=libpciex.so.$(sh scripts/version.sh | cut -d . -f 1,2)
    said=$(sh scripts/link_library.sh "$room/lib" "$library/libpciex_c.a" "$kit/liblibc_c.a" 2>&1) && [ -z "$said" ] && [ -f "$room/lib/$name" ] &&
        [ "$(readlink "$room/lib/libpciex.so")" = "$name" ] && grep -qa "$name" "$room/lib/libpciex.so"
}
python() {
    PCIEX_SO=$room/lib/libpciex.so PYTHONPATH=c/python/src:c/python/tests PYTHONDONTWRITEBYTECODE=1 \
        python3 -m unittest -q test_calls.ASignal
}
other_version() {
    cp -r c/python/src/pciex "$room/pciex"
    sed -i 's/^VERSION = .*/VERSION = "0.1.9"/' "$room/pciex/_raw.py"
    PCIEX_SO=$room/lib/libpciex.so PYTHONPATH=$room PYTHONDONTWRITEBYTECODE=1 python3 -c '
try:
    import pciex
    pciex.version()
except ImportError as error:
    raise SystemExit("this package is for pciex 0.1.9" not in str(error))
raise SystemExit(1)'
}
library=${PCIEX_C:-crates/pciex_c/out}
kit=${KIT_C:-}
[ -n "$kit" ] || ! command -v rt > /dev/null || kit=$(dirname "$(rt doc)")/c
if [ -e "$library/libpciex_c.a" ] && [ -e "$kit/liblibc_c.a" ] && command -v cc > /dev/null; then
    row "SystemVerilog reads a file up to its first NUL byte" nul_byte
    row "the shared object's name has no version, or its linking says something" shared
    if has python3 "misuse of the Python package"; then
        row "a signal's handler makes another call in Python return its bytes" python
        row "the Python package takes a library of another version" other_version
    fi
else
    echo "left out: misuse of the library, since there is no library that is built"
fi

say "$rows rows, $([ $failed -eq 0 ] && echo "each holds" || echo "not each holds")" || failed=1
exit $failed
