#!/bin/sh
# Installs the program and the library for C: install.sh [--program FILE] [--library FOLDER] PREFIX
#
#     bin/pciex                       the program
#     include/pciex.h                 the header, and pciex_differ.h beside it
#     lib/libpciex.a, lib/libpciex.so the library, as link_library.sh makes it
#     lib/pkgconfig/pciex.pc          the flags, relative to where the file lies, so that the folders can be moved
#     share/man/man1/pciex.1          the manual page, if help2man is on the path
#     share/bash-completion/completions/pciex, share/zsh/site-functions/_pciex, share/fish/vendor_completions.d/pciex.fish
#     share/pciex/files               the list of all of these: `cd PREFIX && xargs rm -f < share/pciex/files` removes them
#
# It builds nothing of Rattle. The program is the proved one, which `rt ci` or `rt run` (in crates/pciex) builds, the
# library that of c/check.sh or `rt lib` (in crates/pciex_c). With one option only its part is installed, with both both:
# FILE is a program, as of unproved.sh, FOLDER has libpciex_c.a and liblibc_c.a, as of `unproved.sh --library`. With DESTDIR
# the files go below that folder. The last line says what of the two is not installed.
set -eu
unset CDPATH
umask 022
usage() {
    echo "usage: install.sh [--program FILE] [--library FOLDER] PREFIX" >&2
    exit 2
}
fail() {
    echo "install.sh: $*" >&2
    exit 1
}
program='' library=''
while [ $# -gt 1 ]; do
    case $1 in
        --program) program=$(realpath -m -- "$2") ;;
        --library) library=$(realpath -m -- "$2") ;;
        *) usage ;;
    esac
    shift 2
done
case $#,${1:-} in
    1,/*) prefix=${DESTDIR:-}$1 ;;
    1,[!-]*) prefix=${DESTDIR:-}$PWD/$1 ;;
    *) usage ;;
esac
cd "$(dirname "$0")/.."
kit=$library
if [ -z "$program$library" ]; then
    program=$PWD/crates/pciex/out/pciex library=$PWD/crates/pciex_c/out
    command -v rt > /dev/null || fail "there is no rt on the path"
    kit=$(dirname "$(rt doc)")/c
fi
for file in ${program:+"$program"} ${library:+"$library/libpciex_c.a" "$kit/liblibc_c.a"}; do
    [ -f "$file" ] || fail "there is no $file: it is built first"
done
version=$(sh scripts/version.sh)
without=
room=$(mktemp -d)
trap 'rm -rf "$room"' EXIT
trap 'exit 1' HUP INT TERM
files=$room/files
mkdir "$files"

if [ -n "$library" ]; then
    sh scripts/link_library.sh "$files/lib" "$library/libpciex_c.a" "$kit/liblibc_c.a"
    mkdir "$files/include" "$files/lib/pkgconfig"
    install -m 644 c/pciex.h c/pciex_differ.h "$files/include"
    cat > "$files/lib/pkgconfig/pciex.pc" << end
prefix=\${pcfiledir}/../..
includedir=\${prefix}/include
libdir=\${prefix}/lib

Name: pciex
Description: A PCI Express memory device, fabric and checker of histories
Version: $version
Cflags: -I\${includedir}
Libs: -L\${libdir} -lpciex
end
else
    without="the library"
fi
if [ -n "$program" ]; then
    [ ! -d "$program.parts" ] || fail "$program needs the folder $program.parts, and can't be installed"
    install -D -m 755 "$program" "$files/bin/pciex"
    install -D -m 644 scripts/completions/pciex.bash "$files/share/bash-completion/completions/pciex"
    install -D -m 644 scripts/completions/_pciex "$files/share/zsh/site-functions/_pciex"
    install -D -m 644 scripts/completions/pciex.fish "$files/share/fish/vendor_completions.d/pciex.fish"
else
    without="the program"
fi
if [ -n "$program" ] && command -v help2man > /dev/null; then
    # The help of each subcommand is a section of the page, as it is. help2man hands the program's path to a shell.
    for name in $("$files/bin/pciex" --help | sed -n '/^Commands:/,/^$/s/^  \([a-z]*\) .*/\1/p'); do
        [ "$name" != help ] || continue
        printf '[%s]\n.nf\n' "pciex $name"
        "$files/bin/pciex" "$name" --help | sed 's/\\/\\e/g; s/-/\\-/g; s/^\([.'"'"'[]\)/\\\&\1/'
        printf '.fi\n\n'
    done > "$room/sections"
    mkdir -p "$files/share/man/man1"
    (cd "$files/bin" && help2man --no-info --name "a PCI Express memory device, fabric and checker of histories" \
        --include "$room/sections" --output ../share/man/man1/pciex.1 ./pciex)
elif [ -n "$program" ]; then
    echo "left out: the manual page, since there is no help2man" >&2
fi
mkdir -p "$files/share/pciex"
(cd "$files" && find . ! -type d -printf '%P\n' && echo share/pciex/files) > "$room/list"
cp "$room/list" "$room/all"
[ ! -f "$prefix/share/pciex/files" ] || [ -h "$prefix/share/pciex/files" ] || cat "$prefix/share/pciex/files" >> "$room/all"
LC_ALL=C sort -u "$room/all" > "$files/share/pciex/files"
# Each file is copied beside its place and moved there. A folder may be a link to one.
while read -r name; do
    mkdir -p "$prefix/$(dirname "$name")"
    cp -P "$files/$name" "$prefix/$name.part"
    mv -fT "$prefix/$name.part" "$prefix/$name"
done < "$room/list"
echo "installed: pciex $version in $prefix${without:+, without $without}"
