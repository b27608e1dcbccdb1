# Completion of transdesk for bash: subcommands, their options, and files behind an option.
# packaging/check-completion compares the words with those of `transdesk --help`.

_transdesk() {
    local word=${COMP_WORDS[COMP_CWORD]} before=${COMP_WORDS[COMP_CWORD - 1]}
    local subcommands="simulate check track waves plan run desk help" options="--explain --help"
    COMPREPLY=()
    if [ "$COMP_CWORD" -eq 1 ]; then
        mapfile -t COMPREPLY < <(compgen -W "$subcommands --help --version" -- "$word")
        return
    fi
    case ${COMP_WORDS[1]} in
    help)
        if [ "$COMP_CWORD" -eq 2 ]; then
            mapfile -t COMPREPLY < <(compgen -W "$subcommands" -- "$word")
        fi
        return
        ;;
    check) options="--archs --packages --sources --folder --details --tracker --explain --help" ;;
    track)
        options="--archs --packages --sources --folder --tracker --state --only --summary --chunk"
        options="$options --explain --help"
        ;;
    waves)
        options="--archs --packages --sources --folder --tracker --steps --why --explain --help"
        ;;
    plan)
        options="--archs --packages --sources --folder --tracker --message --state --suite"
        options="$options --explain --help"
        ;;
    run)
        options="--archs --packages --sources --folder --state --tracker --suite --builders"
        options="$options --outcomes --journal --explain --help"
        ;;
    desk)
        options="--journal --archs --packages --sources --folder --state --tracker --suite --wait"
        options="$options --explain --help"
        ;;
    simulate) ;;
    *) return ;;
    esac
    # An option and its value may be joined by `=`, which bash takes for a word of its own.
    if [ "$word" = "=" ]; then
        word=
    elif [ "$before" = "=" ]; then
        before=${COMP_WORDS[COMP_CWORD - 2]}
    fi
    case $before in
    --folder)
        compopt -o filenames 2> /dev/null
        mapfile -t COMPREPLY < <(compgen -d -- "$word")
        ;;
    --archs | --packages | --sources | --tracker | --state | --outcomes | --journal)
        compopt -o filenames 2> /dev/null
        mapfile -t COMPREPLY < <(compgen -f -- "$word")
        ;;
    --only)
        mapfile -t COMPREPLY < <(compgen -W "good bad partial unknown bad,partial" -- "$word")
        ;;
    --chunk | --message | --suite | --builders) ;;
    *)
        # Each option is given once.
        local given option left=
        given=" ${COMP_WORDS[*]:2:COMP_CWORD-2} "
        for option in $options; do
            case $given in *" $option "*) ;; *) left="$left $option" ;; esac
        done
        mapfile -t COMPREPLY < <(compgen -W "$left" -- "$word")
        ;;
    esac
}
complete -F _transdesk transdesk
