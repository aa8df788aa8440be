#!/bin/sh
# Makes of the library for C what a caller links: link_library.sh FOLDER LIBRARY_C LIBC_C
#
#     libpciex.a        the two archives in one: libpciex_c.a, and the toolchain's liblibc_c.a, three functions that call
#                       malloc, realloc and free
#     libpciex.so.0.2   the shared object, which exports `pciex_*` alone. Its name has the version's first two numbers,
#                       so a program never meets a library of other calls than those of its header
#     libpciex.so       a link to it, for the compiler
set -eu
unset CDPATH
if [ $# -ne 3 ] || [ -z "$1" ] || [ "${1#-}" != "$1" ]; then
    echo "usage: link_library.sh FOLDER LIBRARY_C LIBC_C" >&2
    exit 2
fi
for tool in cc ar; do
    command -v $tool > /dev/null || { echo "link_library.sh: there is no $tool on the path" >&2; exit 1; }
done
folder=$1
shared=libpciex.so.$(sh "$(dirname "$0")/version.sh" | cut -d . -f 1,2)
room=$(mktemp -d)
trap 'rm -rf "$room"' EXIT
trap 'exit 1' HUP INT TERM
cp "$2" "$room/library.a"
cp "$3" "$room/kit.a"
# quietly WORD..: runs a command. Where ar and the linker have a plugin for LLVM's modules that is older than what compiled
# them, they say so of each member, and do without; these lines aren't shown.
quietly() {
    status=0
    (cd "$room" && "$@") > "$room/said" 2>&1 || status=$?
    grep -v '^bfd plugin: ' "$room/said" >&2 || :
    return $status
}
printf 'CREATE libpciex.a\nADDLIB library.a\nADDLIB kit.a\nSAVE\nEND\n' > "$room/parts"
echo '{ global: pciex_*; local: *; };' > "$room/exports"
quietly ar -M < "$room/parts"
quietly cc -shared -o "$shared" "-Wl,-soname,$shared" -Wl,--version-script=exports -Wl,--no-undefined \
    -Wl,--whole-archive libpciex.a -Wl,--no-whole-archive
mkdir -p "$folder"
install -m 644 "$room/libpciex.a" "$folder/libpciex.a"
install -m 755 "$room/$shared" "$folder/$shared"
ln -sf "$shared" "$folder/libpciex.so"
