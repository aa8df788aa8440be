#!/bin/sh
# Builds the page that runs the program in a browser: page.sh FILE
#
# FILE is one HTML file of about 1.7 MB, in a folder that is there. It works from disk, without a server or a network:
# WebAssembly of the crates as plain Rust (scripts/plain_rust.sh) in a worker, with the examples. In a folder of the project
# it has links to the pages. It needs python3, make, and a rustc with library and linker for wasm32: on Debian 12 `apt-get
# install rustc libstd-rust-dev-wasm32 lld`. It takes two minutes on a quiet machine, says on standard error how far it is,
# and writes nothing but FILE. The page isn't kept in the repository, since this makes it from nothing.
#
#     page.sh --check [PROGRAM]
#
# compares what the page says in words with what the proved program prints, or PROGRAM (page/said_test.js, node). Then it
# builds the page and drives it in Chromium without a window (page/test.py): each example, and texts that are changed at
# random, have to print and draw what the program does; keys, files, a long run and its end are tried, and its looks in
# four windows. It says so if a tool is missing. With PAGE_PICTURES=FOLDER it leaves pictures of these windows there.
unset CDPATH
set -eu
export PYTHONDONTWRITEBYTECODE=1
say() { printf 'page: %s\n' "$*"; }
fail() {
    say "$*" >&2
    exit 1
}
usage() {
    echo "usage: page.sh FILE, or page.sh --check [PROGRAM]" >&2
    exit 2
}

# absolute PATH: this path, from the folder that this was called in.
absolute() {
    case $1 in
        "" | /*) printf '%s\n' "$1" ;;
        *) printf '%s\n' "$PWD/$1" ;;
    esac
}
check=
file=
case $#,${1:-} in
    1,--check) check=1 ;;
    2,--check)
        case $2 in
            "" | -*) usage ;;
        esac
        check=1
        ;;
    1,[!-]*)
        file=$1
        case $file in
            /*) ;;
            *) file=$PWD/$file ;;
        esac
        [ ! -d "$file" ] || fail "$file is a folder"
        [ -d "${file%/*}/" ] || fail "there is no folder ${file%/*}"
        [ ! -e "$file" ] || [ -f "$file" ] || fail "$file is no file"
        [ -w "${file%/*}/" ] || fail "no file can be made in ${file%/*}"
        ;;
    *) usage ;;
esac
[ -z "$check" ] || shift
pictures=$(absolute "${PAGE_PICTURES:-}")
# (the point keeps a line feed at the end of the folder's name)
top=$(cd "$(dirname "$0")/.." && pwd && echo .)
top=${top%?.}
case $top in
    *'
'*) fail "the project's folder has a line feed in its name" ;;
esac
. "$top/scripts/left_out.sh"
failed=0
if [ -n "$check" ]; then
    program=$(sh "$top/scripts/program.sh" "$@") || exit 1
    ! has node "the words of the page" || node "$top/page/said_test.js" "$program" "$top" || failed=1
fi

# missing WHAT HOW: ends, since there is no WHAT, which HOW brings. Only a check can leave the page out.
missing() {
    [ -n "$check" ] || fail "no $1: $2"
    left_out "the page" "$1"
    exit $failed
}
browser=
if [ -n "$check" ]; then
    for tool in chromium chromium-browser google-chrome; do
        command -v $tool > /dev/null || continue
        browser=$tool
        break
    done
    [ -n "$browser" ] || missing chromium "apt-get install chromium"
fi
for tool in python3 make; do
    command -v $tool > /dev/null || missing $tool "apt-get install $tool"
done
# Of several on the path the first that has the library for wasm32.
target=wasm32-unknown-unknown
rustc=
set -f
IFS=:
for folder in $PATH; do
    kit=$("$folder/rustc" --print sysroot 2> /dev/null) || continue
    [ -d "$kit/lib/rustlib/$target" ] || continue
    rustc=$(absolute "$folder/rustc")
    break
done
unset IFS
set +f
[ -n "$rustc" ] || missing "rustc for wasm32" "rustup target add $target, or on Debian apt-get install rustc libstd-rust-dev-wasm32 lld"
set -- --target $target -C opt-level=s -C panic=abort -C codegen-units=1 --cap-lints allow -L lib
if command -v wasm-ld > /dev/null; then
    set -- "$@" -C linker=wasm-ld
elif ! find "$kit/lib/rustlib/" -name rust-lld | grep -q .; then
    missing "linker for wasm32" "apt-get install lld"
fi

room=$(mktemp -d)
clock=
part=
trap 'kill $clock $part 2> /dev/null || :; rm -rf "$room"' EXIT
trap 'exit 1' HUP INT TERM
began=$(date +%s)

# far WHAT: says how far the work is, with the seconds since its beginning.
far() {
    say "$(($(date +%s) - began)) s: $*" >&2
}

# in_part WORD..: runs a part of the work. A signal ends it, too.
in_part() {
    "$@" &
    part=$!
    wait $part || {
        part=
        return 1
    }
    part=
}

# count FILE..: the number of these files, 0 if it is a pattern of none.
count() {
    [ ! -e "$1" ] && echo 0 || echo $#
}

# Each ten seconds: how many crates are translated, and of those that the page needs compiled.
progress() {
    while sleep 10 > /dev/null 2>&1; do
        set -- "$(count "$room"/rust/lib/*.rlib)" "$(cat "$room/crates" 2> /dev/null || :)"
        if [ -z "$2" ]; then
            far "translated $(count "$room"/rust/*/Cargo.toml) crates"
        elif [ "$1" -lt "$2" ]; then
            far "compiled $1 of $2 crates"
        else
            far "compiled all $2 crates, and links them"
        fi
    done
}
progress &
clock=$!

# What a rustc before 1.88 has only as features: they are Rust's own today.
older=
edition=2024
minor=$("$rustc" --version | sed 's/^rustc 1[.]\([0-9]*\).*/\1/')
if [ "$minor" -lt 88 ]; then
    older=--older
    edition=2021
    export RUSTC_BOOTSTRAP=1
    set -- "$@" "-Zcrate-attr=feature(let_chains,slice_as_chunks,int_roundings)"
fi
mkdir "$room/rust"
in_part python3 "$top/plain/translator/translate.py" $older "$top" "$room/rust"
cp "$top/page/wasm.rs" "$room/rust/pciex_page.rs"
ln -s "$rustc" "$room/rust/rustc"
cd "$room/rust"
mkdir lib

# A makefile: each crate behind those that it names. All its paths are relative, so make reads no folder's name.
{
    printf 'all: lib/pciex_page.wasm\n\n'
    for package in */Cargo.toml; do
        name=${package%/Cargo.toml}
        [ -f "$name/src/lib.rs" ] || continue
        names=$(sed -n '/^version\|^edition/d; s/^\([a-z0-9_]*\)[.]workspace = true$/\1/p' "$package")
        printf 'lib/lib%s.rlib:' "$name"
        for crate in $names; do
            printf ' lib/lib%s.rlib' "$crate"
        done
        printf '\n\t@$(RUSTC) --edition %s --crate-type rlib --crate-name %s' "$edition" "$name"
        for crate in $names; do
            printf ' --extern %s=lib/lib%s.rlib' "$crate" "$crate"
        done
        printf ' %s/src/lib.rs --out-dir lib\n\n' "$name"
    done
    printf 'lib/pciex_page.wasm: lib/libkit.rlib lib/libcli_commands.rlib\n'
    printf '\t@$(RUSTC) --edition 2021 -C lto=fat -C strip=symbols --crate-type cdylib --crate-name pciex_page'
    printf ' --extern kit=lib/libkit.rlib --extern cli_commands=lib/libcli_commands.rlib pciex_page.rs -o lib/pciex_page.wasm\n'
} > Makefile
line=./rustc
for word in "$@"; do
    line="$line '$word'"
done
make -n RUSTC=./rustc | grep -c 'crate-type rlib' > "$room/count"
mv "$room/count" "$room/crates"
in_part make -j "$(getconf _NPROCESSORS_ONLN)" RUSTC="$line" > "$room/log" 2>&1 || {
    tail -n 20 "$room/log" >&2
    fail "its WebAssembly is not compiled"
}
kill $clock
clock=
python3 "$top/page/build.py" lib/pciex_page.wasm "$top" "$room/page.html" "${file:-$room/page.html}"
size=$(wc -c < "$room/page.html")
[ "$size" -le 2097152 ] || fail "$size bytes are more than 2 MB"
if [ -z "$check" ]; then
    mv "$room/page.html" "$file"
    say "$file, $((size / 1000000)).$((size / 100000 % 10)) MB" || exit 1
    exit 0
fi
far "built; tries it in $browser"
in_part python3 "$top/page/test.py" "$room/page.html" "$program" "$browser" ${pictures:+"$pictures"} || failed=1
exit $failed
