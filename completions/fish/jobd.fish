# Completion of jobd for fish.

set -l none 'not __fish_seen_subcommand_from serve replay overrides help'

complete -c jobd -f
complete -c jobd -s h -l help -d 'Print help'
complete -c jobd -n $none -a serve -d 'Run the launcher'
complete -c jobd -n $none -a replay -d 'Replay a journal from standard input'
complete -c jobd -n $none -a overrides -d "Print each label's setting"
complete -c jobd -n $none -a help -d 'Print help'
complete -c jobd -n '__fish_seen_subcommand_from serve' -l socket -r -F -d 'The control socket to make'
complete -c jobd -n '__fish_seen_subcommand_from serve overrides' -l store -r -F -d 'The store of settings'
complete -c jobd -n '__fish_seen_subcommand_from serve' -l spool -x -a '(__fish_complete_directories)' -d 'The folder of the spool'
complete -c jobd -n '__fish_seen_subcommand_from serve' -l journal -r -F -d 'Write each event there'
complete -c jobd -n '__fish_seen_subcommand_from serve' -l zone -x -d 'The time zone, a POSIX TZ string'
complete -c jobd -n '__fish_seen_subcommand_from serve' -l zone-file -r -F -d 'The time zone as a zone file'
