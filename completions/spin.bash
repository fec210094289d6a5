# Completion of bash for spin, made by tools/pages: source it, or put it where bash-completion finds it.
_spin() {
    local at=1 words=''
    COMPREPLY=()
    [[ ${COMP_WORDS[1]} == --quiet ]] && at=2
    if ((COMP_CWORD <= at)) && [[ ${COMP_WORDS[COMP_CWORD]} != --quiet ]]; then
        COMPREPLY=($(compgen -W 'run check join vm gen build library session explain picture filter help version --quiet -h --help --version' -- "${COMP_WORDS[COMP_CWORD]}"))
        return
    fi
    case ${COMP_WORDS[at]} in
        run) words='--out --append --convert --counts --json' ;;
        check) words='--convert' ;;
        join) words='--out --append --convert --counts --json' ;;
        gen) words='--out --append' ;;
        build) words='--all --libraries --any-logic' ;;
        library) words='--plain --out' ;;
        explain) words='--report --convert' ;;
        picture) words='run climb --html --convert --out' ;;
        filter) words='--script --jobs --out --pcap --piece --part --convert --counts --json' ;;
        help) words='run check join vm gen build library session explain picture filter help version' ;;
    esac
    COMPREPLY=($(compgen -W "$words" -- "${COMP_WORDS[COMP_CWORD]}"))
    compopt -o default
}
complete -F _spin spin
