# Completion of the program ulfm for bash: `source docs/completions/ulfm.bash`, or put this file into
# ~/.local/share/bash-completion/completions under the name ulfm.
_ulfm() {
    local word=${COMP_WORDS[COMP_CWORD]} before=${COMP_WORDS[COMP_CWORD - 1]} command=none words i
    for ((i = 1; i < COMP_CWORD; i++)); do
        case ${COMP_WORDS[i]} in
            run | migrate | check | draw | explore | replay | race | help)
                command=${COMP_WORDS[i]}
                break
                ;;
        esac
    done
    case $command in
        none) words='run migrate check draw explore replay race help -h --help -V --version' ;;
        run) words='--steps --echo -h --help' ;;
        migrate) words='-h --help' ;;
        check) words='--explain --observed --witness -h --help' ;;
        draw) words='--text --ascii -h --help' ;;
        explore) words='--most --outcome -h --help' ;;
        replay) words='-h --help' ;;
        race) words='--ranks --rounds --fail -h --help' ;;
        help) words='run migrate check draw explore replay race help' ;;
    esac
    case $before in
        --ranks | --rounds | --fail | --most | --outcome) words= ;;
        '<' | '>') words= && compopt -o default ;;
    esac
    mapfile -t COMPREPLY < <(compgen -W "$words" -- "$word")
}
complete -F _ulfm ulfm
