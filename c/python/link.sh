#!/bin/sh
# Links the shared object that the package calls, src/pciex/libpciex.so, or the file that is named, of libpciex_c.a in
# the folder PCIEX_C and the toolchain's liblibc_c.a in the folder KIT_C.
unset CDPATH
here=$(cd "$(dirname "$0")" && pwd) || exit 1
: "${PCIEX_C:=$here/../../crates/pciex_c/out}"
: "${KIT_C:=$(dirname "$(rt doc)")/c}"
for archive in "$PCIEX_C/libpciex_c.a" "$KIT_C/liblibc_c.a"; do
    if [ ! -e "$archive" ]; then
        echo "link.sh: there is no $archive"
        exit 1
    fi
done
exec cc -shared -Wl,-z,defs -o "${1:-$here/src/pciex/libpciex.so}" -Wl,--whole-archive "$PCIEX_C/libpciex_c.a" \
    -Wl,--no-whole-archive "$KIT_C/liblibc_c.a"
