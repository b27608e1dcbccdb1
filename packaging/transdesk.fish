# Completion of transdesk for fish: subcommands, their options, and files behind an option.
# packaging/check-completion compares the words with those of `transdesk --help`.

complete -c transdesk -f
complete -c transdesk -n __fish_use_subcommand -a simulate -d 'Play steps of the desk and of its builders'
complete -c transdesk -n __fish_use_subcommand -a check -d 'Count what two package indices hold'
complete -c transdesk -n __fish_use_subcommand -a track -d 'Report how far a transition has come'
complete -c transdesk -n __fish_use_subcommand -a waves -d 'List the sources of a transition by levels'
complete -c transdesk -n __fish_use_subcommand -a plan -d 'Write the lines that rebuild a transition'
complete -c transdesk -n __fish_use_subcommand -a run -d 'Do what a script says'
complete -c transdesk -n __fish_use_subcommand -a desk -d 'Answer each line at once, and keep what is done'
complete -c transdesk -n __fish_use_subcommand -a help -d 'Tell of a subcommand'
complete -c transdesk -n __fish_use_subcommand -l version -d 'Tell the version'
complete -c transdesk -n '__fish_seen_subcommand_from help' -a 'simulate check track waves plan run desk help'
complete -c transdesk -n 'not __fish_seen_subcommand_from help' -l help -d 'Tell of what stands before'
for subcommand in check track waves plan run desk
    complete -c transdesk -n "__fish_seen_subcommand_from $subcommand" -l archs -r -F -d 'The table of architectures'
    complete -c transdesk -n "__fish_seen_subcommand_from $subcommand" -l packages -r -F -d 'The Packages index'
    complete -c transdesk -n "__fish_seen_subcommand_from $subcommand" -l sources -r -F -d 'The Sources index'
    complete -c transdesk -n "__fish_seen_subcommand_from $subcommand" -l folder -x -a '(__fish_complete_directories)' -d 'A folder that has the other files'
end
for subcommand in check track waves plan run desk
    complete -c transdesk -n "__fish_seen_subcommand_from $subcommand" -l tracker -r -F -d 'What the transition affects'
end
complete -c transdesk -n '__fish_seen_subcommand_from track plan run desk' -l state -r -F -d 'Rows in the place of others'
complete -c transdesk -n '__fish_seen_subcommand_from simulate check track waves plan run desk' -l explain -d 'Say where a refused text is wrong'
complete -c transdesk -n '__fish_seen_subcommand_from check' -l details -d 'Print a line for each architecture, and warnings'
complete -c transdesk -n '__fish_seen_subcommand_from track' -l only -x -a 'good bad partial unknown bad,partial' -d 'Statuses of the rows that are printed'
complete -c transdesk -n '__fish_seen_subcommand_from track' -l summary -d 'Print no rows'
complete -c transdesk -n '__fish_seen_subcommand_from waves' -l steps -d 'List by steps'
complete -c transdesk -n '__fish_seen_subcommand_from waves' -l why -d 'Print what each source builds on'
complete -c transdesk -n '__fish_seen_subcommand_from track' -l chunk -x -d 'Rows of a piece'
complete -c transdesk -n '__fish_seen_subcommand_from plan' -l message -x -d 'Why rows are rebuilt'
complete -c transdesk -n '__fish_seen_subcommand_from plan run desk' -l suite -x -d 'The suite that lines name'
complete -c transdesk -n '__fish_seen_subcommand_from run' -l builders -x -d 'How many build'
complete -c transdesk -n '__fish_seen_subcommand_from run' -l outcomes -r -F -d 'How builds end'
complete -c transdesk -n '__fish_seen_subcommand_from run' -l journal -r -F -d 'What to go on with'
complete -c transdesk -n '__fish_seen_subcommand_from desk' -l journal -r -F -d 'The file that keeps what was done'
complete -c transdesk -n '__fish_seen_subcommand_from desk' -l wait -d 'Wait while another desk has the file'
