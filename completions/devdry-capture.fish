# Completion of devdry-capture(1) for fish.

complete -c devdry-capture -s h -l help -d 'Print help'
complete -c devdry-capture -s V -l version -d 'Print version'
complete -c devdry-capture -l all -d 'Print all devices'
complete -c devdry-capture -l from -r -F -d 'Record to read in place of /sys'
complete -c devdry-capture -l answer-questions -r -F -d 'Blocks with questions to answer'
complete -c devdry-capture -l action -x -a 'add remove change move online offline bind unbind' -d 'Action of the events'
complete -c devdry-capture -l kernel -d 'Of the device itself print only what the kernel tells'
complete -c devdry-capture -l answers -d 'Also print answers of what udev has stored'
complete -c devdry-capture -l walk -d 'Print keys for a rule in place of blocks'
complete -c devdry-capture -l sysfs -x -a '(__fish_complete_directories)' -d 'Folder to read in place of /sys'
