# Completion of devdry(1) for fish.

complete -c devdry -f
complete -c devdry -s h -l help -d 'Print help'
complete -c devdry -s V -l version -d 'Print version'

complete -c devdry -n __fish_use_subcommand -a verify -d 'Check rules files'
complete -c devdry -n __fish_use_subcommand -a query -d 'Print what the hardware database has for a device'
complete -c devdry -n __fish_use_subcommand -a update -d 'Check the files of the hardware database and write its index'
complete -c devdry -n __fish_use_subcommand -a events -d 'Answer the event blocks of the standard input'
complete -c devdry -n __fish_use_subcommand -a files -d 'List the files of the folders, and say which of them are read'
complete -c devdry -n __fish_use_subcommand -a compare -d 'Tell where two systems answer the event blocks of the standard input differently'
complete -c devdry -n __fish_use_subcommand -a fmt -d 'Mend commas and blanks in rules files'
complete -c devdry -n __fish_use_subcommand -a explain -d 'Explain a message by its code'
complete -c devdry -n __fish_use_subcommand -a help -d 'Print help'
complete -c devdry -n '__fish_seen_subcommand_from help' -a 'verify query update events files compare fmt explain help'

complete -c devdry -n '__fish_seen_subcommand_from verify query update events files compare fmt' -l options -r -F -d 'File of options to put before these, one a line'
complete -c devdry -n '__fish_seen_subcommand_from verify query update events files' -s r -l root -r -a '(__fish_complete_directories)' -d 'Folder to put before each folder that is read'

complete -c devdry -n '__fish_seen_subcommand_from verify' -l with -r -k -a '(__fish_complete_suffix .rules)' -d 'Rules file to read among those of the folders, by its name'
complete -c devdry -n '__fish_seen_subcommand_from events files compare' -l with -r -k -a '(__fish_complete_suffix .rules .hwdb)' -d 'Rules or database file to read among those of the folders, by its name'

complete -c devdry -n '__fish_seen_subcommand_from query events compare' -l index -r -F -d 'Index to read in place of the database\'s folders'
complete -c devdry -n '__fish_seen_subcommand_from verify query update fmt' -l stdin-name -r -F -d 'Name of the standard input, which is the FILE -'

set -l codes V1 V2 V3 V4 V5 V6 V7 V8 V9 V10 V11 V12 V13 V14 V15 V16 V17 V18 V19 V20 V21 V22 V23 V24 V25 V26 S1 S2 S3 S4 S5 S6 H1 H2 H3 H4 H5 H6 W1 W2 W3 W4 W5 W6 W7 W8 W9 W10 W11 W12 W13 W14 W15 W16 W17 W18 W19 W20 W21 W22 W23 W24 W25 W26 W27 D1 D2 D3 D4 D5 D6 D7 D8 D9 D10 D11 D12 D13 L1 L2 L3 L4 L5
complete -c devdry -n '__fish_seen_subcommand_from verify update query events compare' -l all -d 'Go on where a file can\'t be read, and fail where there is none'
complete -c devdry -n '__fish_seen_subcommand_from verify update' -l format -x -a 'plain gcc github gitlab json sarif human' -d 'How messages are written'
complete -c devdry -n '__fish_seen_subcommand_from events compare' -l format -x -a 'plain json human' -d 'How answers are written'
complete -c devdry -n '__fish_seen_subcommand_from verify update' -l color -x -a 'auto always never' -d 'When messages for people are in colors'
complete -c devdry -n '__fish_seen_subcommand_from verify update' -l ignore -x -a "V S H W D L I $codes comments" -d 'Leave out the messages of these codes'
complete -c devdry -n '__fish_seen_subcommand_from compare' -a '(__fish_complete_directories)'
complete -c devdry -n '__fish_seen_subcommand_from compare' -l rules -d 'OLD and NEW are rules files, or folders of them'
complete -c devdry -n '__fish_seen_subcommand_from compare; and __fish_contains_opt rules' -k -a '(__fish_complete_suffix .rules)'
complete -c devdry -n '__fish_seen_subcommand_from explain' -a "$codes I1 I2"

complete -c devdry -n '__fish_seen_subcommand_from verify' -s s -l strict -d 'Make every check: --lint, --udev, --all, users and groups of the root'
complete -c devdry -n '__fish_seen_subcommand_from verify' -l no-summary -d 'Do not count the good and the bad files'
complete -c devdry -n '__fish_seen_subcommand_from verify' -l no-style -d 'Give no messages about style'
complete -c devdry -n '__fish_seen_subcommand_from verify' -l lint -d 'Also tell of rules that are most likely not the ones that were meant'
complete -c devdry -n '__fish_seen_subcommand_from verify' -l links -d 'Check .link files in place of rules'
complete -c devdry -n '__fish_seen_subcommand_from verify; and __fish_contains_opt links' -k -a '(__fish_complete_suffix .link)'
complete -c devdry -n '__fish_seen_subcommand_from verify' -l udev -d 'Read rules as udev itself reads them'
complete -c devdry -n '__fish_seen_subcommand_from verify' -l users -r -F -d 'With --udev: users that OWNER may name, as in /etc/passwd'
complete -c devdry -n '__fish_seen_subcommand_from verify' -l groups -r -F -d 'With --udev: groups that GROUP may name, as in /etc/group'
complete -c devdry -n '__fish_seen_subcommand_from events compare' -l udev -d 'Read and evaluate rules as udev itself does'
complete -c devdry -n '__fish_seen_subcommand_from verify events fmt' -k -a '(__fish_complete_suffix .rules)'

complete -c devdry -n '__fish_seen_subcommand_from query events compare' -l sources -d 'Say where each line comes from'
complete -c devdry -n '__fish_seen_subcommand_from events' -l why -r -k -a '(__fish_complete_suffix .rules)' -d 'Say what the rules of this file, or the one of this line, met'
complete -c devdry -n '__fish_seen_subcommand_from events' -l unused -d 'Report, after the last answer, the rules that no block reached or met'
complete -c devdry -n '__fish_seen_subcommand_from events' -l questions -d 'Print the commands that the blocks do not answer, in place of answers'
complete -c devdry -n '__fish_seen_subcommand_from fmt' -l check -d 'Only list the files that would change'
complete -c devdry -n '__fish_seen_subcommand_from update' -s s -l strict -d 'Exit with status 1 if there is a message'
complete -c devdry -n '__fish_seen_subcommand_from update' -l lint -d 'Also tell of lines that are most likely not the ones that were meant'
complete -c devdry -n '__fish_seen_subcommand_from query update' -k -a '(__fish_complete_suffix .hwdb)'
