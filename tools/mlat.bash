# Completion of mlat for bash: ./install puts it where bash looks for it.

# The options that a command takes.
_mlat_options() {
    case $1 in
        solve) echo '--json --record' ;;
        why) echo '--json' ;;
        many) echo '-j -o --why --json --tail --quiet' ;;
        pack) echo '-0 -o --quiet' ;;
        show) echo '--json --tail --quiet' ;;
        records) echo '--csv --json --skip-malformed --tail --quiet' ;;
        near) echo '--ecef --sort --json --skip-malformed --tail --quiet' ;;
        archive | unarchive | asterix) echo '--skip-malformed --tail --quiet' ;;
        check) echo '--tail --quiet' ;;
    esac
    echo '--help --version'
}

_mlat() {
    local word=${COMP_WORDS[COMP_CWORD]} command=${COMP_WORDS[1]}
    local commands='solve why many pack show records near archive unarchive asterix check patterns'
    if [ "$COMP_CWORD" -eq 1 ]; then
        mapfile -t COMPREPLY < <(compgen -W "$commands --help --version" -- "$word")
    elif [ "${COMP_WORDS[COMP_CWORD - 1]}" = --sort ]; then
        mapfile -t COMPREPLY < <(compgen -W distance -- "$word")
    elif [[ $word == -* ]]; then
        mapfile -t COMPREPLY < <(compgen -W "$(_mlat_options "$command")" -- "$word")
    else
        case $command in
            solve | why | pack) mapfile -t COMPREPLY < <(compgen -d -- "$word") ;;
            patterns) mapfile -t COMPREPLY < <(compgen -W '0 1 2 3 4 5 6' -- "$word") ;;
            *) mapfile -t COMPREPLY < <(compgen -f -- "$word") ;;
        esac
    fi
}

complete -o filenames -F _mlat mlat
