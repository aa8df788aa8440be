#!/bin/sh
# Writes the completion of `pciex` for bash, zsh and fish, scripts/completions/, from the program's help alone:
# completions.sh [--check] [PROGRAM], that of program.sh if none is named. With --check nothing is written: it fails
# if a file is not what would be written, and tries each of them in its shell, if there is that shell.
unset CDPATH
check=
if [ "${1:-}" = --check ]; then
    check=1
    shift
fi
pciex=$(sh "$(dirname "$0")/program.sh" "$@") || exit
cd "$(dirname "$0")/.." || exit 1
room=$(mktemp -d) || exit 1
trap 'rm -rf "$room"' EXIT
trap 'exit 1' HUP INT TERM
. scripts/left_out.sh
say() { echo "completions: $*"; }

# entries SUBCOMMAND: the help of the program or of a subcommand as lines of four fields: a subcommand, an option, the name
# of its value, and what it is, up to a semicolon or a bracket. The line of a subcommand in the program's list has no
# option, an option of the program no subcommand.
entries() {
    "$pciex" ${1:+"$1"} -h | awk -v name="$1" '
        function show() {
            sub(/(;| [[(]).*/, "", text)
            if (first != "") printf "%s\t%s\t%s\t%s\n", part == "Commands:" ? first : name, part == "Commands:" ? "" : first, value, text
            first = value = ""
        }
        /^[A-Z][a-z]*:$/ { part = $1; next }
        /^$/ { show(); part = "" }
        part == "" { next }
        /^            / { sub(/^ +/, ""); text = text " " $0; next }
        {
            show()
            sub(/^ +(-., +)?/, "")
            first = $1
            sub(/^[^ ]+ +/, "")
            if ($1 ~ /^</) { value = $1; sub(/^[^ ]+ +/, "") }
            text = $0
        }
        END { show() }'
}
entries "" > "$room/table"
# shellcheck disable=SC2013 # names of subcommands have no spaces
for name in $(cut -f 1 "$room/table" | grep .); do
    [ "$name" = help ] || entries "$name" >> "$room/table"
done

# write SHELL: the file of that shell. Behind a subcommand that reads, files are completed, too.
write() {
    awk -F '\t' -v shell="$1" '
        function values(option) {
            if (option == "--block") return "64 128"
            if (option == "--granularity") return "4 8 16 64 whole"
            if (option == "--lane") return "up1 up2 up3 up4 up5 up6 up7 down1 down2 down3 down4 down5 down6 down7 in out"
            return ""
        }
        # In single quotes of zsh and fish.
        function quoted(text) {
            gsub(/\047/, shell == "fish" ? "\\\047" : "\047\\\047\047", text)
            return "\047" text "\047"
        }
        function bracketed(text) {
            gsub(/[][]/, "\\\\&", text)
            return "[" text "]"
        }
        function reads(name) { return name !~ /^(generate|sweep|run|help)$/ }
        function readers(    i, all) {
            for (i = 1; i <= count; i++) if (reads(names[i])) all = all (all == "" ? "" : shell == "bash" ? "|" : " ") names[i]
            return all
        }
        $2 == "" { names[++count] = $1; about[$1] = $4; next }
        { number[$1]++; option[$1, number[$1]] = $2; value[$1, number[$1]] = $3; help[$1, number[$1]] = $4 }
        function words(name,    i, all) {
            for (i = 1; i <= number[name]; i++) all = all " " option[name, i]
            return substr(all, 2)
        }
        function list(    i, all) {
            for (i = 1; i <= count; i++) all = all " " names[i]
            return substr(all, 2)
        }
        # The options that have a value, and the words that it may be.
        function bash_values(    name, i, seen) {
            for (name = 0; name <= count; name++)
                for (i = 1; i <= number[names[name]]; i++)
                    if (value[names[name], i] != "" && !seen[option[names[name], i]]++)
                        print "        " option[names[name], i] ") words=\"" values(option[names[name], i]) "\" ;;"
        }
        function zsh_option(name, i,    spec) {
            spec = option[name, i]
            if (value[name, i] != "") spec = spec "="
            spec = spec bracketed(help[name, i])
            if (value[name, i] != "") {
                gsub(/[<>]/, "", value[name, i])
                spec = spec ":" value[name, i] ":"
                if (values(option[name, i]) != "") spec = spec "(" values(option[name, i]) ")"
            }
            return quoted(spec)
        }
        function fish_option(name, i,    line) {
            line = "complete -c pciex -n \"" (name == "" ? "__fish_use_subcommand" : "__fish_seen_subcommand_from " name) "\""
            line = line " -l " substr(option[name, i], 3)
            if (value[name, i] != "") line = line " -x"
            if (values(option[name, i]) != "") line = line " -a " quoted(values(option[name, i]))
            return line " -d " quoted(help[name, i])
        }
        END {
            if (shell == "zsh") print "#compdef pciex"
            print "# Completion of `pciex` for " shell ", made by scripts/completions.sh from the program\047s help."
            if (shell == "bash") {
                print "_pciex() {"
                print "    local word=${COMP_WORDS[COMP_CWORD]} words files="
                print "    case \"${COMP_WORDS[COMP_CWORD - 1]}\" in"
                bash_values()
                print "        *)"
                print "            files=1"
                print "            case \"$COMP_CWORD ${COMP_WORDS[1]}\" in"
                print "                \"1 \"*) words=\"" list() " " words("") "\" ;;"
                print "                \"2 help\") words=\"" list() "\" ;;"
                for (i = 1; i <= count; i++)
                    if (number[names[i]]) print "                *\" " names[i] "\") words=\"" words(names[i]) "\" ;;"
                print "            esac"
                print "            ;;"
                print "    esac"
                print "    mapfile -t COMPREPLY < <(compgen -W \"$words\" -- \"$word\")"
                print "    [[ $files && $COMP_CWORD -gt 1 && $word != -* ]] || return"
                print "    case ${COMP_WORDS[1]} in"
                print "        " readers() ") mapfile -t COMPREPLY < <(compgen -f -- \"$word\") ;;"
                print "    esac"
                print "}"
                print "complete -F _pciex pciex"
            }
            if (shell == "zsh") {
                print "_pciex() {"
                print "    local -a commands=("
                for (i = 1; i <= count; i++) print "        " quoted(names[i] ":" about[names[i]])
                print "    )"
                print "    local state"
                print "    _arguments -C \\"
                for (i = 1; i <= number[""]; i++) print "        " zsh_option("", i) " \\"
                print "        \0471:command:->command\047 \047*::option:->option\047"
                print "    case $state in"
                print "        command) _describe command commands ;;"
                print "        option)"
                print "            case $words[1] in"
                print "                help) _describe command commands ;;"
                for (i = 1; i <= count; i++)
                    if (number[names[i]]) {
                        print "                " names[i] ")"
                        printf "                    _arguments"
                        for (j = 1; j <= number[names[i]]; j++) printf " \\\n                        %s", zsh_option(names[i], j)
                        if (reads(names[i])) printf " \\\n                        \047*:file:_files\047"
                        print "\n                    ;;"
                    }
                print "            esac"
                print "            ;;"
                print "    esac"
                print "}"
                print "_pciex \"$@\""
            }
            if (shell == "fish") {
                print "complete -c pciex -f"
                print "complete -c pciex -n \"__fish_seen_subcommand_from " readers() "\" -F"
                for (i = 1; i <= count; i++)
                    print "complete -c pciex -n \"__fish_use_subcommand; or __fish_seen_subcommand_from help\" -a " names[i] " -d " quoted(about[names[i]])
                for (i = 1; i <= number[""]; i++) print fish_option("", i)
                for (i = 1; i <= count; i++)
                    for (j = 1; j <= number[names[i]]; j++) print fish_option(names[i], j)
            }
        }
    ' "$room/table"
}

failed=0
while read -r shell file; do
    write "$shell" > "$room/$file"
    cmp -s "$room/$file" "scripts/completions/$file" && continue
    if [ -z "$check" ]; then
        cp "$room/$file" "scripts/completions/$file"
        say "scripts/completions/$file is written anew"
    else
        say "scripts/completions/$file is not that of the program's help: scripts/completions.sh writes it"
        failed=1
    fi
done << end
bash pciex.bash
zsh _pciex
fish pciex.fish
end
[ -n "$check" ] || exit 0

# completes SHELL LINE WANTED: whether the shell completes the line's last word so.
completes() {
    # shellcheck disable=SC2016 # words of the inner shell
    case $1 in
        bash) got=$(bash -c '. scripts/completions/pciex.bash; COMP_WORDS=($0) COMP_CWORD=$((${#COMP_WORDS[@]} - 1)); _pciex
            printf "%s\n" "${COMPREPLY[@]}"' "$2") ;;
        fish) got=$(HOME=$room fish --no-config -c "source scripts/completions/pciex.fish; complete -C '$2'") ;;
    esac
    got=$(echo "$got" | cut -f 1 | sort -u | xargs)
    [ "$got" = "$3" ] && return
    say "$1 completes '$2' by '$got', and not by '$3'"
    failed=1
}
for shell in bash fish; do
    if has $shell "completion"; then
        completes $shell "pciex st" step
        completes $shell "pciex step --k" --keep-going
        completes $shell "pciex search --" "--core --draw --granularity --help --limit --progress --work"
        completes $shell "pciex search --granularity 1" 16
        completes $shell "pciex tlp --block 1" 128
        completes $shell "pciex chart --lane i" in
        completes $shell "pciex help enc" encode
        completes $shell "pciex draw crates.t" crates.txt
        completes $shell "pciex check --clocked crates.t" crates.txt
        completes $shell "pciex generate crates.t" ""
    fi
done
if has zsh "completion"; then
    zsh -n scripts/completions/_pciex || failed=1
fi
say "$(cut -f 1 "$room/table" | grep -c .) lines of help, $([ $failed -eq 0 ] && echo "each file as they say" || echo "not each file as they say")" || failed=1
exit $failed
