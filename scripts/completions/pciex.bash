# Completion of `pciex` for bash, made by scripts/completions.sh from the program's help.
_pciex() {
    local word=${COMP_WORDS[COMP_CWORD]} words files=
    case "${COMP_WORDS[COMP_CWORD - 1]}" in
        --base) words="" ;;
        --size) words="" ;;
        --block) words="64 128" ;;
        --id) words="" ;;
        --credits) words="" ;;
        --limit) words="" ;;
        --work) words="" ;;
        --granularity) words="4 8 16 64 whole" ;;
        --from) words="" ;;
        --to) words="" ;;
        --lane) words="up1 up2 up3 up4 up5 up6 up7 down1 down2 down3 down4 down5 down6 down7 in out" ;;
        --seed) words="" ;;
        --events) words="" ;;
        --requesters) words="" ;;
        --lose) words="" ;;
        --corrupt) words="" ;;
        --seeds) words="" ;;
        --workers) words="" ;;
        --each) words="" ;;
        --turns) words="" ;;
        *)
            files=1
            case "$COMP_CWORD ${COMP_WORDS[1]}" in
                "1 "*) words="tlp endpoint decode encode check search draw upgrade step chart generate sweep run help --help --version" ;;
                "2 help") words="tlp endpoint decode encode check search draw upgrade step chart generate sweep run help" ;;
                *" tlp") words="--base --size --block --help" ;;
                *" endpoint") words="--size --id --trace --link --crc --credits --help" ;;
                *" decode") words="--help" ;;
                *" encode") words="--help" ;;
                *" check") words="--clocked --help" ;;
                *" search") words="--limit --work --granularity --core --draw --progress --help" ;;
                *" draw") words="--from --to --help" ;;
                *" upgrade") words="--help" ;;
                *" step") words="--trace --keep-going --echo --help" ;;
                *" chart") words="--lane --from --to --all --levels --help" ;;
                *" generate") words="--seed --events --requesters --lose --corrupt --block --help" ;;
                *" sweep") words="--seeds --events --requesters --lose --corrupt --block --clocked --keep-going --workers --help" ;;
                *" run") words="--requesters --each --lose --corrupt --turns --workers --progress --help" ;;
            esac
            ;;
    esac
    mapfile -t COMPREPLY < <(compgen -W "$words" -- "$word")
    [[ $files && $COMP_CWORD -gt 1 && $word != -* ]] || return
    case ${COMP_WORDS[1]} in
        tlp|endpoint|decode|encode|check|search|draw|upgrade|step|chart) mapfile -t COMPREPLY < <(compgen -f -- "$word") ;;
    esac
}
complete -F _pciex pciex
