#!/bin/sh
# Compares the prototypes of c/pciex.h with the functions that the library exports: prototypes.sh [ARCHIVE]
#
# From each `pub extern "C" fn` of crates/pciex_c, each slot, the fields of a TLP and credits it writes the declaration that C
# owes it: a slice is a pointer and a length, an allocator is nothing. cc compiles these behind the header, so that another type
# is an error. Both have the same names, and so has the archive, libpciex_c.a, if one is given. Fails if they differ.
unset CDPATH
cd "$(dirname "$0")/.." || exit 1
say() { echo "prototypes: $*"; }
if ! command -v cc > /dev/null; then
    echo "left out: the header's functions beside the library's, since there is no cc"
    exit 0
fi
room=$(mktemp -d) || exit 1
trap 'rm -rf "$room"' EXIT
trap 'exit 1' HUP INT TERM

# fields FILE STRUCT: a struct in C with the fields of that struct, which has its layout from C.
fields() {
    awk -v name="$2" '
        /^#\[repr\(C\)\]$/ { is_c = 1; next }
        is_c && $0 == "pub struct " name " {" { inside = 1; print "struct library_" name " {"; next }
        /^#\[derive/ { next }
        !inside { is_c = 0; next }
        /^}$/ { print "};"; inside = 0; found = 1; exit }
        / ghost / || /: Global,$/ || /^ *\/\// { next }
        {
            sub(/^ *(pub )?/, "")
            sub(/,$/, "")
            split($0, part, ": ")
            if (part[2] ~ /^u(8|16|32|64)$/) print "    uint" substr(part[2], 2) "_t " part[1] ";"
            else if (part[2] == "*mut ()") print "    void *" part[1] ";"
            else { print "#error a field in C of the type " part[2]; exit }
        }
        END { if (!found) print "#error no struct in C " name }' "$1"
}

# same_layout STRUCT TYPE FIELD..: that the struct of `fields` has the layout of the type, and these fields are all it has.
same_layout() {
    struct=$1 type=$2
    shift 2
    echo "_Static_assert(sizeof(struct library_$struct) == sizeof($type), \"the size of $type\");"
    for field in "$@"; do
        echo "_Static_assert(offsetof(struct library_$struct, $field) == offsetof($type, $field), \"$type, $field\");"
        echo "_Static_assert(sizeof ((struct library_$struct *)0)->$field == sizeof (($type *)0)->$field, \"$type, $field\");"
    done
}

# declarations FILE HANDLE: the prototype of each function that the file exports. HANDLE is the type of its slots, if it has
# some.
declarations() {
    awk -v handle="$2" '
        function type_of(type) {
            if (type ~ /^u(8|16|32|64)$/) return "uint" substr(type, 2) "_t"
            if (type == "usize") return "size_t"
            if (type == "bool") return "bool"
            if (type == "Slot") return handle
            if (type == "TlpFields") return "pciex_tlp"
            if (type == "FiniteCredits") return "pciex_credits"
            return ""
        }
        function parameter(text,   part, type) {
            split(text, part, ": ")
            type = part[2]
            if (type == "Global") return ""
            if (type == "&[u8]") return "const uint8_t *" part[1] ", size_t " part[1] "_count"
            if (type == "&mut [u8]") return "uint8_t *" part[1] ", size_t " part[1] "_count"
            if (sub(/^&mut /, "", type)) return type_of(type) " *" part[1]
            if (sub(/^&/, "", type)) return "const " type_of(type) " *" part[1]
            return type_of(type) " " part[1]
        }
        /^pub extern "C" fn / { inside = 1; head = "" }
        inside { sub(/^ */, ""); head = head $0 " " }
        inside && (/^\)/ || /\)$/ || /->/) {
            inside = 0
            name = head
            sub(/.* fn /, "", name)
            list = name
            sub(/\(.*/, "", name)
            sub(/^[a-z0-9_]*\( */, "", list)
            result = "void"
            if (match(list, /\) -> [a-z0-9]+/)) result = type_of(substr(list, RSTART + 5, RLENGTH - 5))
            sub(/,? *\).*/, "", list)
            given = ""
            count = split(list, parameters, ", ")
            for (at = 1; at <= count; at++) {
                one = parameter(parameters[at])
                if (one != "") given = given (given == "" ? "" : ", ") one
            }
            print result " " name "(" given ");"
        }' "$1"
}

# unlike WHAT FILE: whether the names in the file are other ones than those that the library exports. Says which.
unlike() {
    diff "$room/exported" "$2" > "$room/difference" && return 1
    say "other functions than in crates/pciex_c/src: $1"
    cat "$room/difference"
}

{
    echo '#include "pciex.h"'
    for source in crates/pciex_c/src/*.rt; do
        declarations "$source" "pciex_$(basename "$source" .rt)"
    done
    fields crates/c_packets/src/fields.rt TlpFields
    fields crates/c_linked/src/setup.rt FiniteCredits
} > "$room/library.c"
# same_fields STRUCT TYPE: the same with all its fields.
same_fields() {
    # shellcheck disable=SC2046
    same_layout "$1" "$2" $(sed -n "/^struct library_$1 /,/^};/s/.* \(.*\);\$/\1/p" "$room/library.c")
}
{ same_fields TlpFields pciex_tlp; same_fields FiniteCredits pciex_credits; } > "$room/layouts"
cat "$room/layouts" >> "$room/library.c"
for part in device fabric monitor endpoint linked; do
    fields crates/c_$part/src/slot.rt Slot | sed "s/library_Slot/library_$part/"
    same_layout $part pciex_$part at
done >> "$room/library.c"
failed=0
cc -std=c11 -Wall -Wextra -Werror -Ic -c -o "$room/library.o" "$room/library.c" || failed=1

sed -n 's/^[a-z0-9_]* \(pciex_raw_[a-z0-9_]*\)(.*/\1/p' "$room/library.c" | sort > "$room/exported"
sed -n 's/^[a-z0-9_]* \(pciex_raw_[a-z0-9_]*\)(.*/\1/p' c/pciex.h | sort > "$room/declared"
count=$(wc -l < "$room/exported")
[ "$count" = "$(cat crates/pciex_c/src/*.rt | grep -c no_mangle)" ] || {
    say "not each function of crates/pciex_c/src was found"
    failed=1
}
unlike "c/pciex.h" "$room/declared" && failed=1
if [ $# -gt 0 ]; then
    # What it tells of an archive's parts without symbols is no fault.
    nm -g --defined-only "$1" 2> /dev/null | sed -n 's/.* T \(pciex_[a-z0-9_]*\)$/\1/p' | sort > "$room/symbols"
    unlike "$1" "$room/symbols" && failed=1
fi
[ $failed = 0 ] && say "$count functions, $(grep -c _Static_assert "$room/library.c") facts of layout"
exit $failed
