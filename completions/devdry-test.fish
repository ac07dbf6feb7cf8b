# Completion of devdry-test(1) for fish.

complete -c devdry-test -s h -l help -d 'Print help'
complete -c devdry-test -s V -l version -d 'Print version'
complete -c devdry-test -l action -x -a 'add remove change move online offline bind unbind' -d 'Action of the event'
complete -c devdry-test -s r -l root -x -a '(__fish_complete_directories)' -d 'Folder to put before each folder that is read'
complete -c devdry-test -l from -r -F -d 'Record to take the device from'
complete -c devdry-test -l color -x -a 'auto always never' -d 'When there are colors'
complete -c devdry-test -l json -d 'Print the answer as a JSON object'
