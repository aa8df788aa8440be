# shellcheck shell=sh
# For `.`, of each script that leaves something out where a tool is missing: the one wording of it, which .ci/run gathers.
unset CDPATH

# left_out WHAT TOOL: says that WHAT is left out.
left_out() {
    echo "left out: $1, since there is no $2"
}

# has TOOL WHAT: whether there is such a command. If not, says that WHAT is left out.
has() {
    command -v "$1" > /dev/null && return
    left_out "$2" "$1"
    return 1
}

# is_cargo_new: whether there is a cargo of 1.88 or later.
is_cargo_new() {
    cargo --version 2> /dev/null | awk -F '[ .]' '$2 > 1 || $2 == 1 && $3 >= 88 { is_new = 1 } END { exit !is_new }'
}
