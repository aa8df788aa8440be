#!/bin/sh
# Installs the tools that the gate's scripts want: tools.sh [--list]
#
# On Debian 12, as root, with apt-get. A tool that is there is left as it is. What can't be had is told, a line for each,
# and isn't a failure: the script that wants it says what it leaves out. With --list nothing is installed: a line for each
# tool, with its package, and whether it is there. .ci/run calls it where CI is `true` and it runs as root.
unset CDPATH
set -u
. "$(dirname "$0")/left_out.sh"
say() { echo "tools: $*"; }
trap 'exit 1' HUP INT TERM
case "$#${1:-}" in
    0 | 1--list) ;;
    *) echo "usage: tools.sh [--list]" >&2; exit 2 ;;
esac

# What is looked for (a command, or a file that a pattern names), its package, and what of the gate wants it.
tools() {
    cat << 'end'
cc gcc this_machine.sh, refused_allocations.sh, c/check.sh
c++ g++ the header as C++, SystemC
ar binutils the library for C
make make page.sh, the testbenches
git git wrong_bodies.sh, release.sh
python3 python3 searches.sh, endpoint.sh, plain_rust.sh
shellcheck shellcheck the shell scripts
bash bash completions
fish fish completions
zsh zsh completions
tclsh tcl co_process.sh
parallel parallel sweeps.sh
pkill procps sweeps.sh
setsid util-linux sweeps.sh
prlimit util-linux c/check.sh
/usr/sbin/sshd openssh-server sweeps over machines
ssh openssh-client sweeps over machines
iverilog iverilog log_writers.sh
verilator verilator log_writers.sh, SystemVerilog
ghdl ghdl log_writers.sh
valgrind valgrind c/check.sh, the device in QEMU
/usr/include/systemc libsystemc-dev the SystemC testbench
/usr/lib/python3/dist-packages/pip python3-pip the Python package
/usr/lib/python3/dist-packages/setuptools python3-setuptools the Python package
/usr/lib/python3/dist-packages/wheel python3-wheel the Python package
lspci pciutils the registers of an endpoint
tshark tshark the dissector
qemu-system-x86_64 qemu-system-x86 the device in QEMU
cpio cpio a guest in QEMU
help2man help2man the manual page
man man-db the manual page
pkg-config pkg-config installed.sh
chromium chromium the page
node nodejs what the page says in words
wasm-ld lld the page
/usr/lib/rustlib/wasm32-unknown-unknown libstd-rust-dev-wasm32 the page
/usr/bin/rustc rustc the page
/usr/share/cargo/registry/arrayvec-* librust-arrayvec-dev plain Rust with crates of crates.io
/usr/share/cargo/registry/byteorder-* librust-byteorder-dev plain Rust with crates of crates.io
/usr/share/cargo/registry/hex-* librust-hex-dev plain Rust with crates of crates.io
/usr/share/cargo/registry/itoa-* librust-itoa-dev plain Rust with crates of crates.io
/usr/share/cargo/registry/memchr-* librust-memchr-dev plain Rust with crates of crates.io
/usr/share/cargo/registry/thiserror-* librust-thiserror-dev plain Rust with crates of crates.io
/boot/vmlinuz-*-cloud-amd64 linux-image-cloud-amd64 a guest in QEMU
end
}

# is_there TOOL: whether the command, the file or one file of the pattern is there.
is_there() {
    case $1 in
        /*)
            for file in $1; do
                [ -e "$file" ] && return
            done
            return 1
            ;;
        *) command -v "$1" > /dev/null ;;
    esac
}

# missing: the packages of the tools that aren't there.
missing() {
    tools | while read -r tool package _; do
        is_there "$tool" || echo "$package"
    done
}
if [ "${1:-}" = --list ]; then
    tools | while read -r tool package what; do
        printf '%-42s %-24s %-6s %s\n' "$tool" "$package" "$(is_there "$tool" && echo there || echo -)" "$what"
    done
    # Rust 1.88 is no package of Debian 12.
    printf '%-42s %-24s %-6s %s\n' "cargo 1.88" - "$(is_cargo_new && echo there || echo -)" plain_rust.sh
    exit 0
fi
packages=$(missing | sort -u)
if [ -z "$packages" ]; then
    say "all are there"
    exit 0
fi
if ! command -v apt-get > /dev/null || [ "$(id -u)" -ne 0 ]; then
    say "not installed, since this isn't root of a Debian: $(echo "$packages" | xargs)"
    exit 0
fi

# quietly SECONDS WORD..: runs apt-get, for so many seconds at most, and shows its end if it fails.
quietly() {
    seconds=$1
    shift
    output=$(DEBIAN_FRONTEND=noninteractive timeout "$seconds" apt-get -qq -o Acquire::Retries=1 -o Acquire::http::Timeout=20 \
        -o DPkg::Lock::Timeout=60 "$@" 2>&1) && return
    echo "$output" | tail -n 1
    return 1
}
quietly 120 update || say "the list of packages isn't reached; the one that is there is taken"
kernel=
case " $(echo "$packages" | xargs) " in
    *" linux-image-cloud-amd64 "*) kernel=1 ;;
esac
packages=$(echo "$packages" | grep -v '^linux-image')
# shellcheck disable=SC2086 # a word for each package
if [ -n "$packages" ] && ! quietly 900 install -y --no-install-recommends $packages; then
    # One that there isn't keeps all from being installed.
    for package in $packages; do
        quietly 300 install -y --no-install-recommends "$package" || :
    done
fi
# Of the guest's kernel one file is wanted, and not its modules and what starts it.
if [ -n "$kernel" ]; then
    room=$(mktemp -d) || exit 1
    name=$(apt-cache depends linux-image-cloud-amd64 2> /dev/null | sed -n 's/^ *Depends: \(linux-image-[0-9].*\)/\1/p' | head -n 1)
    # shellcheck disable=SC2015
    (cd "$room" && chmod 755 . && quietly 300 download "$name" && dpkg-deb --fsys-tarfile ./*.deb | tar -xf - --wildcards './boot/vmlinuz-*' &&
        mkdir -p /boot && mv boot/vmlinuz-* /boot) || say "no guest's kernel"
    rm -rf "$room"
fi
packages=$(missing | sort -u | xargs)
say "${packages:+not to be had: }${packages:-all are there}"
