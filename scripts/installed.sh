#!/bin/sh
# Tries a release: makes its archive, unpacks it in an empty folder, compares the sums, runs the program on an example,
# compiles a C program with the flags of pkg-config alone, once against the static library and once against the shared
# object, runs the Python package and a SystemVerilog testbench, reads the manual page, completes words in bash, runs the
# worked rows and the commands of the pages, and removes what was installed. Program and library were built before, or are named by the options
# of install.sh. Fails if one of them fails. Says what it leaves out, since a tool is missing.
# shellcheck disable=SC2016 # words of inner shells
unset CDPATH
case ${1---program} in
    --program | --library) ;;
    *) echo "usage: installed.sh [--program FILE] [--library FOLDER]" >&2; exit 2 ;;
esac
for word in "$@"; do
    case $word in
        --program | --library) ;;
        *) word=$(realpath -m -- "$word") ;;
    esac
    set -- "$@" "$word"
    shift
done
cd "$(dirname "$0")/.." || exit 1
. scripts/left_out.sh
say() { echo "installed: $*"; }
if ! command -v cc > /dev/null || { [ $# -eq 0 ] && [ ! -e crates/pciex_c/out/libpciex_c.a ]; }; then
    echo "left out: a release, since there is no library that is built, or no cc"
    exit 0
fi
room=$(mktemp -d) || exit 1
trap 'rm -rf "$room"' EXIT
trap 'exit 1' HUP INT TERM
version=$(sh scripts/version.sh)
runs=0
failed=0

# prints WHAT TEXT WORD..: whether a run has status 0 and prints this text.
prints() {
    what=$1 wanted=$2
    shift 2
    got=$("$@" 2>&1 < /dev/null)
    status=$?
    runs=$((runs + 1))
    if [ $status -ne 0 ] || [ "$got" != "$wanted" ]; then
        say "$what: status $status, '$got' and not '$wanted'"
        failed=1
    fi
}

tar=$(sh scripts/release.sh "$room" --changed "$@" 2> "$room/log") || { cat "$room/log"; exit 1; }
grep '^left out: .* no help2man$' "$room/log"
mkdir "$room/empty" || exit 1
tar -C "$room/empty" -xzf "$tar" || exit 1
home=$room/empty/pciex-$version
prints "the archive's sum" "$(basename "$tar"): OK" sh -c 'cd "$0" && sha256sum -c SHA256SUMS' "$room"
prints "the files' sums" "" sh -c 'cd "$0" && sha256sum -c --quiet SHA256SUMS' "$home"
prints "the program" "pciex $version" "$home/bin/pciex" --version
prints "the first script" "$(cat examples/first_script.out)" sh -c 'cd "$0" && bin/pciex step < examples/first_script.txt' "$home"
if [ -e "$home/share/man/man1/pciex.1" ] && has man "the manual page of a release"; then
    prints "the manual page's example" 1 sh -c 'man -l "$0" 2> /dev/null | grep -cF "| pciex decode"' "$home/share/man/man1/pciex.1"
fi
if command -v python3 > /dev/null; then
    prints "the Python package" "ok" env PCIEX_SO="$home/lib/libpciex.so" PYTHONPATH="$home/c/python/src" PYTHONDONTWRITEBYTECODE=1 \
        sh -c 'python3 "$0/c/python/examples/check.py" < "$0/examples/trace.txt"' "$home"
else
    echo "left out: the Python package of a release, since there is no python3"
fi
if command -v verilator > /dev/null; then
    prints "the SystemVerilog testbench" "$(printf 'verilator: %s, a minute\n' calls_tb scoreboard_tb)" \
        make -s -C "$home/c/sv/test" ARCHIVES="$home/lib/libpciex.a" OUT="$room/sv"
else
    echo "left out: the SystemVerilog testbench of a release, since there is no verilator"
fi

cat > "$room/first.c" << 'end'
#include <pciex.h>
#include <stdio.h>

int main(void)
{
    static uint8_t memory[4096];
    const uint8_t add[16] = {0x4C, 0, 0, 1, 1, 0, 5, 0, 0, 0, 0, 0x40, 7, 0, 0, 0};
    uint8_t room[PCIEX_LINE];
    pciex_device device = PCIEX_NONE;
    uint32_t code = pciex_answer(memory, sizeof memory, 0, 64, add, sizeof add, room, sizeof room);
    uint32_t made = pciex_device_new(0, 4096, 64, &device);
    uint32_t served = pciex_device_serve(&device, 0, add, sizeof add, room, sizeof room);
    pciex_device_free(&device);
    uint32_t count = pciex_version(room, sizeof room);
    printf("%s, %.*s: %u bytes, the word is %u, %u %u\n", PCIEX_VERSION, (int)count, (const char *)room, (unsigned)code,
           memory[0x40], (unsigned)made, (unsigned)served);
    return 0;
}
end
text="$version, pciex $version: 16 bytes, the word is 7, 0 16"
if command -v pkg-config > /dev/null; then
    PKG_CONFIG_PATH=$home/lib/pkgconfig
    export PKG_CONFIG_PATH
    prints "pkg-config's version" "$version" pkg-config --modversion pciex
    cd "$room" || exit 1
    # shellcheck disable=SC2046
    if cc -Wall -Wextra -Werror -std=c99 -static -o static first.c $(pkg-config --static --cflags --libs pciex); then
        prints "a C program with the archive" "$text" ./static
    else
        say "no C program is linked with the archive"
        failed=1
    fi
    # shellcheck disable=SC2046
    if cc -Wall -Wextra -Werror -std=c99 -o shared first.c $(pkg-config --cflags --libs pciex); then
        prints "a C program with the shared object" "$text" env LD_LIBRARY_PATH="$home/lib" ./shared
    else
        say "no C program is linked with the shared object"
        failed=1
    fi
else
    echo "left out: the C programs of a release, since there is no pkg-config"
fi

if command -v bash > /dev/null; then
    # shellcheck disable=SC2016
    complete='. "$0/share/bash-completion/completions/pciex"; PATH=$0/bin:$PATH
        COMP_WORDS=("$@") COMP_CWORD=$(($# - 1)); _pciex pciex; echo "${COMPREPLY[*]}"'
    prints "a subcommand completed" "step" bash -c "$complete" "$home" pciex st
    prints "an option completed" "--keep-going" bash -c "$complete" "$home" pciex step --k
else
    echo "left out: the completion of a release, since there is no bash"
fi
if has python3 "the worked rows of a release"; then
    prints "the worked rows" "" sh -c 'sh "$0/scripts/rows.sh" > /dev/null' "$home"
fi
prints "the commands of the pages" "" sh -c 'sh "$0/scripts/pages.sh" > /dev/null' "$home"
prints "a log of this machine" "" sh -c 'sh "$0/scripts/this_machine.sh" > /dev/null' "$home"
prints "the removal of what was installed" "" sh -c 'cd "$0" && xargs rm < share/pciex/files && find bin include lib share ! -type d' "$home"
say "$runs runs of $(basename "$tar"), $([ $failed -eq 0 ] && echo "each as it should be" || echo "not each as it should be")" || failed=1
exit $failed
