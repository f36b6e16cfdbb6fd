# Completion of linkwords in bash: the commands, each one's options, and files.

_linkwords() {
    local word=${COMP_WORDS[COMP_CWORD]} options=
    local commands='solve explain why patterns check value form page steps positions recordings compare draw smt'

    if [ "$COMP_CWORD" -eq 1 ]; then
        mapfile -t COMPREPLY < <(compgen -W "$commands --help --version" -- "$word"; compgen -f -- "$word")
        return
    fi
    case ${COMP_WORDS[1]} in
        why) options='--bit' ;;
        patterns) options='--most --fresh --random' ;;
        page) options='--number' ;;
        positions) options='--big' ;;
        recordings) options='--list --big' ;;
        smt) options='--check' ;;
    esac
    case ${COMP_WORDS[COMP_CWORD - 1]} in
        --bit | --most | --fresh | --random | --number) return ;;
    esac
    if [[ $word == -* ]]; then
        mapfile -t COMPREPLY < <(compgen -W "$options --help" -- "$word")
    else
        mapfile -t COMPREPLY < <(compgen -f -- "$word")
    fi
}

complete -o filenames -F _linkwords linkwords
