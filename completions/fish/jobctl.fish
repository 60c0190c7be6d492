# Completion of jobctl for fish.

# The option with the control socket that the command line names, if it names one.
function __jobctl_socket
    set -l words (commandline -opc)
    for at in (seq 2 (count $words))
        switch $words[$at]
            case '--socket=*'
                echo $words[$at]
                return
            case --socket
                if test (math $at + 1) -le (count $words)
                    echo --socket=$words[(math $at + 1)]
                end
                return
        end
    end
end

# The labels that are loaded, one a line.
function __jobctl_labels
    set -lx JOBCTL_TIMEOUT 2
    jobctl (__jobctl_socket) list 2>/dev/null | awk -F '\t' 'NR > 1 { print $3 }'
end

# The labels as words. One that begins with - is offered behind --, and -- where such a label is.
function __jobctl_words
    set -l labels (__jobctl_labels)
    if contains -- -- (commandline -opc)
        printf '%s\n' $labels
        return
    end
    printf '%s\n' (string match -v -- '-*' $labels)
    if string match -q -- '-*' $labels
        printf '%s\n' --
    end
end

# The labels as targets, behind the domain that the word names.
function __jobctl_targets
    set -l found (string match -r -- '^["\']?((?:system|user/[0-9]+|gui/[0-9]+)/)' (commandline -ct))
    if test (count $found) -eq 2
        string replace -r '^' $found[2] -- (__jobctl_labels)
        return
    end
    if string match -q -- 's*' (commandline -ct)
        echo system/
    end
    __jobctl_words
end

# The files that may be definitions, and the folders.
function __jobctl_files
    __fish_complete_suffix .json
    __fish_complete_suffix .plist
end

set -l subcommands load unload apply start stop enable disable kickstart list print shutdown help
set -l none "not __fish_seen_subcommand_from $subcommands"

complete -c jobctl -f
complete -c jobctl -n $none -l socket -r -F -d "The launcher's control socket"
complete -c jobctl -s h -l help -d 'Print help'
complete -c jobctl -n $none -a load -d 'Load job definitions'
complete -c jobctl -n $none -a unload -d 'Stop and remove the jobs of these files'
complete -c jobctl -n $none -a apply -d 'Bring files or folders of job definitions into effect'
complete -c jobctl -n $none -a start -d 'Start a job'
complete -c jobctl -n $none -a stop -d "Stop a job's running child"
complete -c jobctl -n $none -a enable -d 'Allow a label to be loaded, from now on'
complete -c jobctl -n $none -a disable -d 'Keep a label from being loaded, from now on'
complete -c jobctl -n $none -a kickstart -d 'Start a job now, within its throttle'
complete -c jobctl -n $none -a list -d 'List the loaded jobs'
complete -c jobctl -n $none -a print -d 'Show the status of a job'
complete -c jobctl -n $none -a shutdown -d 'Stop every job, then the launcher'
complete -c jobctl -n $none -a help -d 'Print help'
complete -c jobctl -n '__fish_seen_subcommand_from load unload apply' -a '(__jobctl_files)'
complete -c jobctl -n '__fish_seen_subcommand_from unload' -a '(__jobctl_words)'
complete -c jobctl -n '__fish_seen_subcommand_from load' -s w -d 'Also enable the label'
complete -c jobctl -n '__fish_seen_subcommand_from load' -s F -d 'Load a disabled job too'
complete -c jobctl -n '__fish_seen_subcommand_from unload' -s w -d 'Also disable the label'
complete -c jobctl -n '__fish_seen_subcommand_from apply' -l dry-run -d 'Print what would be done'
complete -c jobctl -n '__fish_seen_subcommand_from apply' -l prune -d 'Unload jobs that the folder had'
complete -c jobctl -n '__fish_seen_subcommand_from apply' -l now -d 'Stop runs too'
complete -c jobctl -n '__fish_seen_subcommand_from apply' -l strict -d 'Do nothing if there is a warning'
complete -c jobctl -n '__fish_seen_subcommand_from apply' -l wait -d 'Wait until runs exit'
complete -c jobctl -n '__fish_seen_subcommand_from apply' -l json -d 'Write JSON objects'
complete -c jobctl -n '__fish_seen_subcommand_from kickstart' -s k -d 'Kill a running child first'
complete -c jobctl -n '__fish_seen_subcommand_from start stop' -a '(__jobctl_words)'
complete -c jobctl -n '__fish_seen_subcommand_from enable disable kickstart print' -a '(__jobctl_targets)'
