#compdef transdesk
# Completion of transdesk for zsh: subcommands, their options, and files behind an option.
# packaging/check-completion compares the words with those of `transdesk --help`.

_transdesk() {
    local -a subcommands indices tracker explain
    subcommands=(
        'simulate:play steps of the desk and of its builders'
        'check:count what two package indices hold'
        'track:report how far a transition has come'
        'waves:list the sources of a transition by levels'
        'plan:write the lines that rebuild a transition'
        'run:do what a script says over the rows of an archive'
        'desk:answer each line at once, and keep what is done'
        'help:tell of a subcommand'
    )
    indices=(
        '--archs=[the table of architectures]:file:_files'
        '--packages=[the Packages index]:file:_files'
        '--sources=[the Sources index]:file:_files'
        '--folder=[a folder that has the other files]:folder:_files -/'
    )
    explain=('--explain[say where a refused text is wrong]')
    tracker=('--tracker=[what the transition affects]:file:_files')
    if (( CURRENT == 2 )); then
        _describe subcommand subcommands
        _arguments '--help[tell of the program]' '--version[tell the version]'
        return
    fi
    (( CURRENT-- ))
    shift words
    case $words[1] in
        help) (( CURRENT == 2 )) && _describe subcommand subcommands ;;
        simulate) _arguments $explain '--help[tell of the subcommand]' ;;
        check)
            _arguments $indices '--details[print a line for each architecture, and warnings]' \
                $tracker $explain '--help[tell of the subcommand]'
            ;;
        track)
            _arguments $indices $tracker '--state=[rows in the place of others]:file:_files' \
                '--only=[statuses of the rows that are printed]:statuses:(good bad partial unknown bad,partial)' \
                '--summary[print no rows]' \
                '--chunk=[rows of a piece]:rows:' $explain '--help[tell of the subcommand]'
            ;;
        plan)
            _arguments $indices $tracker '--message=[why rows are rebuilt]:text:' \
                '--state=[rows in the place of others]:file:_files' \
                '--suite=[the suite that lines name]:suite:' $explain '--help[tell of the subcommand]'
            ;;
        run)
            _arguments $indices $tracker '--state=[rows in the place of others]:file:_files' \
                '--suite=[the suite that lines name]:suite:' '--builders=[how many build]:builders:' \
                '--outcomes=[how builds end]:file:_files' '--journal=[what to go on with]:file:_files' \
                $explain '--help[tell of the subcommand]'
            ;;
        desk)
            _arguments '--journal=[the file that keeps what was done]:file:_files' $indices $tracker \
                '--state=[rows in the place of others]:file:_files' \
                '--suite=[the suite that lines name]:suite:' \
                '--wait[wait while another desk has the file]' $explain '--help[tell of the subcommand]'
            ;;
        waves)
            _arguments $indices $tracker '--steps[list by steps]' \
                '--why[print what each source builds on]' $explain '--help[tell of the subcommand]'
            ;;
    esac
}

_transdesk "$@"
