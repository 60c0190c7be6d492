# Completion of jobscope for fish.

# The journal that the command line names, or that of JOBD_JOURNAL.
function __jobscope_journal
    set -l words (commandline -opc)
    for at in (seq 2 (count $words))
        switch $words[$at]
            case '--journal=*'
                string replace -- '--journal=' '' $words[$at]
                return
            case --journal
                if test (math $at + 1) -le (count $words)
                    echo $words[(math $at + 1)]
                end
                return
        end
    end
    if set -q JOBD_JOURNAL
        echo $JOBD_JOURNAL
    end
end

# The labels of the jobs whose load the journal tells, one a line: that journal, or the one that jobscope finds.
function __jobscope_labels
    set -l journal (__jobscope_journal)
    set -l named
    if test -n "$journal" -a "$journal" != -
        set named --journal $journal
    end
    jobscope runs $named 2>/dev/null </dev/null | awk -F '\t' 'NR > 1 { print $1 }'
end

# The files that may be definitions, and the folders.
function __jobscope_files
    __fish_complete_suffix .json
    __fish_complete_suffix .plist
end

# The files that may be property lists, and the folders. fish offers the other files behind them.
function __jobscope_lists
    __fish_complete_suffix .plist | string match -r '^[^\t]*(?:\.plist|/)(?:\t.*)?$'
end

set -l subcommands check next status metrics why log runs picture show drift cron plist help
set -l none "not __fish_seen_subcommand_from $subcommands"

complete -c jobscope -f
complete -c jobscope -s h -l help -d 'Print help'
complete -c jobscope -n $none -a check -d 'Check whether job definitions load, and what may be wrong with them'
complete -c jobscope -n $none -a next -d 'Show the coming starts of calendars and intervals'
complete -c jobscope -n $none -a status -d 'Show the status of each job of a launcher'
complete -c jobscope -n $none -a metrics -d 'Print the same as metrics for Prometheus'
complete -c jobscope -n $none -a why -d 'Explain why each job runs or not'
complete -c jobscope -n $none -a log -d "Print the events of a journal in plain English"
complete -c jobscope -n $none -a runs -d "Count each job's runs"
complete -c jobscope -n $none -a picture -d "Draw each job's runs over time"
complete -c jobscope -n $none -a show -d 'Show job definitions as they are loaded'
complete -c jobscope -n $none -a drift -d 'Compare files of job definitions with what is loaded'
complete -c jobscope -n $none -a cron -d 'Write a job definition for each line of a crontab'
complete -c jobscope -n $none -a plist -d 'Convert property lists in XML to job definitions in JSON'
complete -c jobscope -n $none -a help -d 'Print help'
complete -c jobscope -n '__fish_seen_subcommand_from cron' -a - -d 'The lines of standard input'
complete -c jobscope -n '__fish_seen_subcommand_from cron' -l system -d "The lines have a user field"
complete -c jobscope -n '__fish_seen_subcommand_from cron' -l logs -r -F -d 'Write the output of each job to this folder'
complete -c jobscope -n '__fish_seen_subcommand_from cron plist' -l into -r -F -d 'Write a file for each definition into this folder'
complete -c jobscope -n '__fish_seen_subcommand_from plist' -a '(__jobscope_lists)'
complete -c jobscope -n '__fish_seen_subcommand_from check next drift' -a '(__jobscope_files)'
complete -c jobscope -n '__fish_seen_subcommand_from check' -l strict -d 'Fail at a warning too'
complete -c jobscope -n '__fish_seen_subcommand_from check next' -l zone -x -d 'The time zone, a POSIX TZ string'
complete -c jobscope -n '__fish_seen_subcommand_from check next' -l zone-file -r -F -d 'The time zone as a zone file'
complete -c jobscope -n '__fish_seen_subcommand_from check next' -l utc -d 'Use UTC, not the zone of this machine'
complete -c jobscope -n '__fish_seen_subcommand_from check' -l now -x -d 'From this second of Unix time on'
complete -c jobscope -n '__fish_seen_subcommand_from status metrics why log runs picture' -l now -x -d 'Take this second of Unix time for now'
complete -c jobscope -n '__fish_seen_subcommand_from next status metrics why' -l status-file -r -F -d "The launcher's status file"
complete -c jobscope -n '__fish_seen_subcommand_from why' -l failing -d 'Only those that fail'
complete -c jobscope -n '__fish_seen_subcommand_from why' -l at -x -d 'As of this time, as 03:00'
complete -c jobscope -n '__fish_seen_subcommand_from next' -s n -x -d 'How many starts'
complete -c jobscope -n '__fish_seen_subcommand_from next' -l from -x -d 'After this second of Unix time'
complete -c jobscope -n '__fish_seen_subcommand_from next' -l all -d "All coming starts of a journal's jobs"
complete -c jobscope -n '__fish_seen_subcommand_from next why log runs picture show drift' -l journal -r -F -d 'The journal'
complete -c jobscope -n '__fish_seen_subcommand_from status metrics why log runs picture show' -a '(__jobscope_labels)'
complete -c jobscope -n '__fish_seen_subcommand_from status why log runs picture show' -l utc -d 'Show times in UTC'
complete -c jobscope -n '__fish_seen_subcommand_from check next status why runs show drift' -l json -d 'Write JSON objects'
complete -c jobscope -n '__fish_seen_subcommand_from picture' -l html -d 'Write a self-contained HTML page'
complete -c jobscope -n '__fish_seen_subcommand_from log' -s f -d 'Follow the journal as it grows'
complete -c jobscope -n '__fish_seen_subcommand_from log runs picture' -l since -x -d 'From this time on, as yesterday or -2h'
complete -c jobscope -n '__fish_seen_subcommand_from log runs picture' -l until -x -d 'Up to this time'
