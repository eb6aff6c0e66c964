# Completion of tracebench for fish, made by `checks/check-docs --write completions` from the grammar in `crates/cli`.

# Whether the subcommand is this one; without an argument, whether none is given yet.
function __tracebench_given
    set -l words (commandline -opc)
    test "$words[2]" = "$argv"
end

complete -c tracebench -f
complete -c tracebench -s h -l help -d 'Print help'
complete -c tracebench -n '__tracebench_given' -s V -l version -d 'Print version'
complete -c tracebench -n '__tracebench_given' -a check -d 'Check whether logs are legal'
complete -c tracebench -n '__tracebench_given' -a encode -d 'Write the trace messages of logs'
complete -c tracebench -n '__tracebench_given' -a dump -d 'Write the messages of a capture as text'
complete -c tracebench -n '__tracebench_given' -a decode -d 'Write the logs that the messages of a capture describe'
complete -c tracebench -n '__tracebench_given' -a replay -d 'Send logs through the funnel as a schedule says, and report what is decoded'
complete -c tracebench -n '__tracebench_given' -a bench -d 'Send logs through the funnel, each from a thread of its own, and report what is decoded'
complete -c tracebench -n '__tracebench_given' -a audit -d 'Compare a capture that came with the one that was sent, message by message'
complete -c tracebench -n '__tracebench_given' -a measure -d 'Count the packets and bytes that logs take, as CSV'
complete -c tracebench -n '__tracebench_given' -a list -d 'List what each message of a capture says and settles'
complete -c tracebench -n '__tracebench_given' -a salvage -d 'Write what is left of the log of each hart after any damage to a capture'
complete -c tracebench -n '__tracebench_given' -a capture -d 'Write the capture of lines, each of one message, as `encode --hex` prints them'
complete -c tracebench -n '__tracebench_given' -a compare -d 'Say whether a capture describes just these logs'
complete -c tracebench -n '__tracebench_given' -a generate -d 'Make an image, a log or a capture from a seed, for a path without a core'
complete -c tracebench -n '__tracebench_given' -a help -d 'Print this message or the help of the given subcommand(s)'
complete -c tracebench -n '__tracebench_given help' -a 'check encode dump decode replay bench audit measure list salvage capture compare generate'

complete -c tracebench -n '__tracebench_given check' -F
complete -c tracebench -n '__tracebench_given check' -l base -x -d 'Address of the image'\''s first byte, in hexadecimal'
complete -c tracebench -n '__tracebench_given check' -l also -x -d 'Further piece of the image, any number of times: address in hexadecimal, =, file'
complete -c tracebench -n '__tracebench_given check' -l explain -d 'Print below an illegal row what is there and what may follow'
complete -c tracebench -n '__tracebench_given check' -l symbols -r -F -d 'With --explain, file of the program'\''s symbols, as `nm` prints them'
complete -c tracebench -n '__tracebench_given check' -l long -d 'Take logs of up to 4294967295 rows, not 16777216'
complete -c tracebench -n '__tracebench_given check' -l progress -d 'Show how far the logs are read, where standard error is a terminal'

complete -c tracebench -n '__tracebench_given encode' -F
complete -c tracebench -n '__tracebench_given encode' -l base -x -d 'Address of the image'\''s first byte, in hexadecimal'
complete -c tracebench -n '__tracebench_given encode' -l also -x -d 'Further piece of the image, any number of times: address in hexadecimal, =, file'
complete -c tracebench -n '__tracebench_given encode' -l period -x -d 'Retirements from one periodic synchronisation to the next, 1 to 65535'
complete -c tracebench -n '__tracebench_given encode' -l full -d 'Report addresses in full, not as differences'
complete -c tracebench -n '__tracebench_given encode' -l v1 -d 'Write a capture of version 1, which has no header, of at most 64 logs'
complete -c tracebench -n '__tracebench_given encode' -l hex -d 'Write a line of hexadecimal for each message'
complete -c tracebench -n '__tracebench_given encode' -l mixed -x -d 'Mix the messages of the logs, by a number from 0 to 18446744073709551615; without it, one log after another'
complete -c tracebench -n '__tracebench_given encode' -l first -x -d 'The hart of the first log, with --of, 0 to 1023; without it, 0'
complete -c tracebench -n '__tracebench_given encode' -l of -x -d 'Of how many harts the logs are a part, 1 to 1024, with --v1 to 64; without it, the count of logs'
complete -c tracebench -n '__tracebench_given encode' -l long -d 'Take logs of up to 4294967295 rows, not 16777216'
complete -c tracebench -n '__tracebench_given encode' -l progress -d 'Show how far the logs are read, where standard error is a terminal'

complete -c tracebench -n '__tracebench_given dump' -F
complete -c tracebench -n '__tracebench_given dump' -l search -d 'Go on where bytes are no message, and print how many are passed over'
complete -c tracebench -n '__tracebench_given dump' -l only -x -d 'Look at harts A to B alone, or at hart A, 0 to 1023; without it, at all'
complete -c tracebench -n '__tracebench_given dump' -l symbols -r -F -d 'File of the program'\''s symbols, as `nm` prints them'
complete -c tracebench -n '__tracebench_given dump' -l progress -d 'Show how far the capture is worked through, where standard error is a terminal'

complete -c tracebench -n '__tracebench_given decode' -F
complete -c tracebench -n '__tracebench_given decode' -l base -x -d 'Address of the image'\''s first byte, in hexadecimal'
complete -c tracebench -n '__tracebench_given decode' -l also -x -d 'Further piece of the image, any number of times: address in hexadecimal, =, file'
complete -c tracebench -n '__tracebench_given decode' -l harts -x -d 'How many harts a capture of version 1 may have, 1 to 1024'
complete -c tracebench -n '__tracebench_given decode' -l only -x -d 'Look at harts A to B alone, or at hart A, 0 to 1023; without it, at all'
complete -c tracebench -n '__tracebench_given decode' -l lossy -d 'Go on where messages are missing, and print how many are'
complete -c tracebench -n '__tracebench_given decode' -l progress -d 'Show how far the capture is worked through, where standard error is a terminal'

complete -c tracebench -n '__tracebench_given replay' -F
complete -c tracebench -n '__tracebench_given replay' -l base -x -d 'Address of the image'\''s first byte, in hexadecimal'
complete -c tracebench -n '__tracebench_given replay' -l also -x -d 'Further piece of the image, any number of times: address in hexadecimal, =, file'
complete -c tracebench -n '__tracebench_given replay' -l period -x -d 'Retirements from one periodic synchronisation to the next, 1 to 65535'
complete -c tracebench -n '__tracebench_given replay' -l full -d 'Report addresses in full, not as differences'
complete -c tracebench -n '__tracebench_given replay' -l capacity -x -d 'How many messages the funnel holds, 1 to 65536'
complete -c tracebench -n '__tracebench_given replay' -l progress -d 'Show how far the logs are read, where standard error is a terminal'

complete -c tracebench -n '__tracebench_given bench' -F
complete -c tracebench -n '__tracebench_given bench' -l base -x -d 'Address of the image'\''s first byte, in hexadecimal'
complete -c tracebench -n '__tracebench_given bench' -l also -x -d 'Further piece of the image, any number of times: address in hexadecimal, =, file'
complete -c tracebench -n '__tracebench_given bench' -l period -x -d 'Retirements from one periodic synchronisation to the next, 1 to 65535'
complete -c tracebench -n '__tracebench_given bench' -l full -d 'Report addresses in full, not as differences'
complete -c tracebench -n '__tracebench_given bench' -l capacity -x -d 'How many messages the funnel holds, 1 to 65536'
complete -c tracebench -n '__tracebench_given bench' -l progress -d 'Show how far the logs are read, where standard error is a terminal'

complete -c tracebench -n '__tracebench_given audit' -F
complete -c tracebench -n '__tracebench_given audit' -l packets -d 'Compare messages by the packets that they unpack to, not by their bytes'
complete -c tracebench -n '__tracebench_given audit' -l unnumbered -d 'Do not look at the numbers of RECEIVED: align what came with what was sent'
complete -c tracebench -n '__tracebench_given audit' -l live -d 'Read both files side by side as they come, and print each line as soon as it is decided'
complete -c tracebench -n '__tracebench_given audit' -l window -x -d 'With --live, how many messages before and after the front are looked at, 1 to 16777216; without it, 65536'
complete -c tracebench -n '__tracebench_given audit' -l only -x -d 'Look at harts A to B alone, or at hart A, 0 to 1023; without it, at all'
complete -c tracebench -n '__tracebench_given audit' -l summary -d 'Leave out the lines of single messages, of bytes and of lost numbers'
complete -c tracebench -n '__tracebench_given audit' -l format -x -d 'What is printed: text, or csv, a table'
complete -c tracebench -n '__tracebench_given audit' -l progress -d 'Show how far the capture is worked through, where standard error is a terminal'

complete -c tracebench -n '__tracebench_given measure' -F
complete -c tracebench -n '__tracebench_given measure' -l base -x -d 'Address of the image'\''s first byte, in hexadecimal'
complete -c tracebench -n '__tracebench_given measure' -l also -x -d 'Further piece of the image, any number of times: address in hexadecimal, =, file'
complete -c tracebench -n '__tracebench_given measure' -l period -x -d 'Retirements from one periodic synchronisation to the next, 1 to 65535'
complete -c tracebench -n '__tracebench_given measure' -l full -d 'Report addresses in full, not as differences'
complete -c tracebench -n '__tracebench_given measure' -l long -d 'Take logs of up to 4294967295 rows, not 16777216'
complete -c tracebench -n '__tracebench_given measure' -l progress -d 'Show how far the logs are read, where standard error is a terminal'

complete -c tracebench -n '__tracebench_given list' -F
complete -c tracebench -n '__tracebench_given list' -l base -x -d 'Address of the image'\''s first byte, in hexadecimal'
complete -c tracebench -n '__tracebench_given list' -l also -x -d 'Further piece of the image, any number of times: address in hexadecimal, =, file'
complete -c tracebench -n '__tracebench_given list' -l harts -x -d 'How many harts a capture of version 1 may have, 1 to 1024; without it, 1, with --salvage those of its messages'
complete -c tracebench -n '__tracebench_given list' -l only -x -d 'Look at harts A to B alone, or at hart A, 0 to 1023; without it, at all'
complete -c tracebench -n '__tracebench_given list' -l symbols -r -F -d 'File of the program'\''s symbols, as `nm` prints them'
complete -c tracebench -n '__tracebench_given list' -l rows -d 'Print which rows of its hart each message settles'
complete -c tracebench -n '__tracebench_given list' -l salvage -d 'List every message that is found, and what `salvage` does with it'
complete -c tracebench -n '__tracebench_given list' -l format -x -d 'What is printed: text, or csv, a table'
complete -c tracebench -n '__tracebench_given list' -l progress -d 'Show how far the capture is worked through, where standard error is a terminal'

complete -c tracebench -n '__tracebench_given salvage' -F
complete -c tracebench -n '__tracebench_given salvage' -l base -x -d 'Address of the image'\''s first byte, in hexadecimal'
complete -c tracebench -n '__tracebench_given salvage' -l also -x -d 'Further piece of the image, any number of times: address in hexadecimal, =, file'
complete -c tracebench -n '__tracebench_given salvage' -l harts -x -d 'How many harts a capture with no valid header has, 1 to 1024; without it, those of its messages'
complete -c tracebench -n '__tracebench_given salvage' -l only -x -d 'Look at harts A to B alone, or at hart A, 0 to 1023; without it, at all'
complete -c tracebench -n '__tracebench_given salvage' -l symbols -r -F -d 'File of the program'\''s symbols, as `nm` prints them'
complete -c tracebench -n '__tracebench_given salvage' -l summary -d 'Leave out the texts of the logs'
complete -c tracebench -n '__tracebench_given salvage' -l format -x -d 'What is printed: text, or csv, a table'
complete -c tracebench -n '__tracebench_given salvage' -l progress -d 'Show how far the capture is worked through, where standard error is a terminal'

complete -c tracebench -n '__tracebench_given capture' -F
complete -c tracebench -n '__tracebench_given capture' -l v1 -d 'Write a capture of version 1, which has no header, of at most 64 harts'
complete -c tracebench -n '__tracebench_given capture' -l full -d 'The header says that packets report addresses in full, not as differences'
complete -c tracebench -n '__tracebench_given capture' -l period -x -d 'The period that the header has, 1 to 65535'
complete -c tracebench -n '__tracebench_given capture' -l harts -x -d 'How many harts the header counts, 1 to 1024, with --v1 to 64; without it, those up to the highest'
complete -c tracebench -n '__tracebench_given capture' -l number-bits -x -d 'NUMBER is the lowest W bits of a message'\''s number, W 4 to 32; without it, the number itself'
complete -c tracebench -n '__tracebench_given capture' -l skip -d 'With --harts or --v1, pass over lines that have a fault, and print how many they are'

complete -c tracebench -n '__tracebench_given compare' -F
complete -c tracebench -n '__tracebench_given compare' -l base -x -d 'Address of the image'\''s first byte, in hexadecimal'
complete -c tracebench -n '__tracebench_given compare' -l also -x -d 'Further piece of the image, any number of times: address in hexadecimal, =, file'
complete -c tracebench -n '__tracebench_given compare' -l harts -x -d 'How many harts a capture of version 1 may have, 1 to 1024'
complete -c tracebench -n '__tracebench_given compare' -l only -x -d 'Look at harts A to B alone, or at hart A, 0 to 1023; without it, at all'
complete -c tracebench -n '__tracebench_given compare' -l explain -d 'Print the up to three rows before the first that differs'
complete -c tracebench -n '__tracebench_given compare' -l symbols -r -F -d 'File of the program'\''s symbols, as `nm` prints them'
complete -c tracebench -n '__tracebench_given compare' -l long -d 'Take logs of up to 4294967295 rows, not 16777216'
complete -c tracebench -n '__tracebench_given compare' -l progress -d 'Show how far the logs are read, where standard error is a terminal'

complete -c tracebench -n '__tracebench_given generate' -f -a 'image log capture'
complete -c tracebench -n '__tracebench_given generate' -l seed -x -d 'The number that decides all draws, 0 to 18446744073709551615'
complete -c tracebench -n '__tracebench_given generate' -l mix -x -d 'What the program does: mixed, branches, jumps, traps, longest or straight'
complete -c tracebench -n '__tracebench_given generate' -l base -x -d 'Address of the image'\''s first byte, in hexadecimal'
complete -c tracebench -n '__tracebench_given generate' -l hart -x -d 'The hart whose log is made, 0 to 1023; without it, 0'
complete -c tracebench -n '__tracebench_given generate' -l events -x -d 'How many rows the log has, 1 to 4294967295; without it, 1000000'
complete -c tracebench -n '__tracebench_given generate' -l harts -x -d 'How many harts the capture has, 1 to 1024, with --v1 to 64; without it, 1'
complete -c tracebench -n '__tracebench_given generate' -l messages -x -d 'How many messages the capture has before those that close the traces, 1 to 1099511627776; without it, 1000000'
complete -c tracebench -n '__tracebench_given generate' -l period -x -d 'Retirements from one periodic synchronisation to the next, 1 to 65535; without it, 1024'
complete -c tracebench -n '__tracebench_given generate' -l full -d 'Report addresses in full, not as differences'
complete -c tracebench -n '__tracebench_given generate' -l v1 -d 'Write a capture of version 1, which has no header, of at most 64 harts'
complete -c tracebench -n '__tracebench_given generate' -l burst -x -d 'How many messages of one hart come one after another at most, 1 to 65535; without it, 16'
