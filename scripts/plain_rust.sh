#!/bin/sh
# Writes the crates as a cargo workspace of plain Rust: plain_rust.sh [--older] [--crates-io] FOLDER
#
# FOLDER gets a package for each crate, with the same name, and the package `kit`, which has what Rattle's library has, on
# Rust's own. `cargo build --release` in FOLDER then builds the program and the library for C in about a minute, without
# Rattle and without a network; `cargo install --path FOLDER/pciex` installs the program, `cargo test --workspace` runs the
# tests, `cargo doc --workspace` shows each public item with its contract. The translation (plain/translator, Python 3)
# changes no code: it takes out what is for proofs, and names the library's types otherwise. It lists each cut in
# FOLDER/cuts.jsonl (scripts/cuts.sh), and stops with file and line at what it doesn't know. With --older it writes for
# Rust 1.63, and for places of 32 bits, for scripts/page.sh. With --crates-io the workspace uses crates of crates.io where
# modules of `kit` stand for them, and cargo has to reach these.
#
#     plain_rust.sh --check [PROGRAM]
#
# tries that the plain program is the same as the proved one, or PROGRAM: it builds the workspace without warnings, runs
# `cargo test --workspace` (with the clauses of each function of `kit` that is called: plain/called.py), the programs of docs/use-the-crates.md, plain/examples and bench/, builds page/wasm.rs, runs the scripts
# that try a program over an optimized build, and compares the two on 20,000 mutated lines for each subcommand, in a build
# with checks of sums at run time. Then it compares the program with --crates-io, on fewer lines, where Debian's packages of these crates are
# installed. It needs cargo of 1.88 or later, and says so if there is none.
set -eu
unset CDPATH
say() { echo "plain rust: $*"; }
options=
check=
while :; do
    case ${1:-} in
        --older | --crates-io) options="$options $1" ;;
        --check) check=1 ;;
        *) break ;;
    esac
    shift
done
# What `pwd` prints ends before the point, so that a line feed at a path's end isn't lost.
top=$(cd "$(dirname "$0")/.." && pwd && echo .)
top=${top%??}
case $top in
    *"
"*)
        echo "plain rust: the project's path has a line feed" >&2
        exit 2
        ;;
esac
. "$top/scripts/left_out.sh"
if ! command -v python3 > /dev/null; then
    echo "left out: plain Rust, since there is no python3"
    [ -n "$check" ] || exit 1
    exit 0
fi
if [ -z "$check" ]; then
    case $#,${1:-} in
        1,[!-]*) ;;
        *)
            echo "usage: plain_rust.sh [--older] [--crates-io] FOLDER, or plain_rust.sh --check [PROGRAM]" >&2
            exit 2
            ;;
    esac
    mkdir -p "$1"
    # shellcheck disable=SC2086 # a word for each option
    python3 "$top/plain/translator/translate.py" "$top" "$1" $options
    set -- "$1" "$1"/*/Cargo.toml
    say "$(($# - 1)) packages in $1"
    exit 0
fi
if ! is_cargo_new; then
    echo "left out: plain Rust, since there is no cargo of 1.88 or later"
    exit 0
fi
program=$(sh "$top/scripts/program.sh" "$@") || exit
room=$(mktemp -d)
trap 'rm -rf "$room"' EXIT
trap 'exit 1' HUP INT TERM
failed=0

# tries COMMAND..: runs a command, and shows what it prints if it fails.
tries() {
    "$@" > "$room/log" 2>&1 && return
    cat "$room/log"
    say "failed: $*"
    failed=1
}

# blocks KIND: the blocks of code of this kind in docs/use-the-crates.md, each as $room/block.NUMBER.KIND.
blocks() {
    awk -v kind="$1" -v room="$room" '
        $0 == "```" kind { file = room "/block." ++number "." kind; next }
        /^```/ { file = "" }
        file != "" { print > file }
    ' "$top/docs/use-the-crates.md"
}
mkdir "$room/out"
python3 "$top/plain/translator/translate.py" "$top" "$room/out"
cd "$room/out"
export CARGO_NET_OFFLINE=true
RUSTFLAGS="-D warnings" cargo build --quiet --release || exit 1
# (what a user types; what follows takes the libraries that it compiles)
tries cargo test --workspace
tests=$(awk '/^test result: ok/ { count += $4 } END { print count + 0 }' "$room/log")
tries cargo build --quiet
# Each function of `kit` that the program or the library for C calls is tried by its clauses.
clauses=$(cargo test --quiet --package kit --test clauses --no-run --message-format=json | sed -n 's/.*"executable":"\([^"]*\)".*/\1/p')
tries python3 "$top/plain/called.py" "$top/plain/kit" "$clauses" target/debug/pciex target/debug/libpciex_c.so
tries sh "$top/bench/run.sh" --check "$room/out"
blocks toml
blocks rust
for example in "$top"/plain/examples/*.rs; do
    cp "$example" "$room/block.$(basename "$example" .rs).rust"
done
examples=0
for block in "$room"/block.*.rust; do
    mkdir -p "$room/example/src"
    cp "$block" "$room/example/src/main.rs"
    printf '%s\n' '[package]' 'name = "example"' 'edition = "2024"' '[workspace]' > "$room/example/Cargo.toml"
    cat "$room/block.1.toml" >> "$room/example/Cargo.toml"
    cd "$room/example"
    tries env CARGO_TARGET_DIR="$room/out/target" cargo run --quiet
    examples=$((examples + 1))
done
# What the page has of the program, which only a rustc for WebAssembly links.
mkdir "$room/page"
printf '%s\n' '[package]' 'name = "page"' 'edition = "2021"' '[workspace]' '[lib]' "path = \"$top/page/wasm.rs\"" '[dependencies]' \
    "kit.path = \"$room/out/kit\"" "cli_commands.path = \"$room/out/cli_commands\"" > "$room/page/Cargo.toml"
cd "$room/page"
tries env CARGO_TARGET_DIR="$room/out/target" cargo build --quiet
plain=$room/out/target/release/pciex
cd "$top"
for script in pages rows built_program settles searches large_inputs refused_allocations; do
    sh "scripts/$script.sh" "$plain" || failed=1
done
(cd "$room" && python3 "$top/plain/compare.py" 20000 "$program" "$room/out/target/debug/pciex") || failed=1

# The same with crates of crates.io, from the folder that Debian's packages of them fill.
debian=/usr/share/cargo/registry
lacks=
for crate in arrayvec byteorder hex itoa memchr thiserror; do
    set -- "$debian/$crate"-[0-9]*
    [ -d "$1" ] || lacks="$lacks librust-$crate-dev"
done
if [ -n "$lacks" ]; then
    for package in $lacks; do
        echo "left out: plain Rust with crates of crates.io, since there is no $package"
    done
else
    python3 "$top/plain/translator/translate.py" "$top" "$room/crates_io" --crates-io
    tries python3 "$top/plain/cuts.py" "$top" "$room/crates_io"
    mkdir "$room/crates_io/.cargo"
    printf '%s\n' '[source.crates-io]' 'replace-with = "debian"' '[source.debian]' "directory = \"$debian\"" \
        > "$room/crates_io/.cargo/config.toml"
    cd "$room/crates_io"
    tries env RUSTFLAGS="-D warnings" cargo build --quiet
    tries cargo test --quiet --package kit
    (cd "$room" && python3 "$top/plain/compare.py" 2000 "$program" "$room/crates_io/target/debug/pciex") || failed=1
fi

packages=0
for package in "$room"/out/*/Cargo.toml; do
    [ ! -f "$package" ] || packages=$((packages + 1))
done
say "$packages packages, $tests tests, $examples programs over the crates, $([ $failed -eq 0 ] && echo "the same program" || echo "not the same program")" || failed=1
exit $failed
