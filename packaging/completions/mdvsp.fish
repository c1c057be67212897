# Completion of mdvsp for fish. tools/usage.py writes this file from packaging/commands.txt.

complete -c mdvsp -f
complete -c mdvsp -n __fish_use_subcommand -l help
complete -c mdvsp -n __fish_use_subcommand -l version
complete -c mdvsp -n __fish_use_subcommand -l quiet -d 'say nothing on standard error'
complete -c mdvsp -n __fish_use_subcommand -l log -d 'write there, in lines, how far a search has come'
complete -c mdvsp -n __fish_use_subcommand -a solve -d 'plan the vehicles of a timetable'
complete -c mdvsp -n __fish_use_subcommand -a resume -d 'go on from the plan\'s document behind the timetable'
complete -c mdvsp -n __fish_use_subcommand -a trace -d 'plan as solve does'
complete -c mdvsp -n __fish_use_subcommand -a replay -d 'make the steps of such a trace behind its timetable again'
complete -c mdvsp -n __fish_use_subcommand -a check -d 'judge a plan\'s document behind its timetable'
complete -c mdvsp -n __fish_use_subcommand -a blocks -d 'print the timetable of a plan\'s vehicles'
complete -c mdvsp -n __fish_use_subcommand -a network -d 'report how large a timetable\'s networks are'
complete -c mdvsp -n __fish_use_subcommand -a peak -d 'report how few vehicles each layer needs for all that it may run'
complete -c mdvsp -n __fish_use_subcommand -a peakcheck -d 'judge such a text behind its timetable'
complete -c mdvsp -n __fish_use_subcommand -a make -d 'write a timetable of N trips'
complete -c mdvsp -n __fish_use_subcommand -a trial -d 'make such a timetable'
complete -c mdvsp -n '__fish_seen_subcommand_from solve resume trace' -x -l workers -d 'threads that share the search: 1 to 64, or auto for all processors'
complete -c mdvsp -n '__fish_seen_subcommand_from solve resume trace' -x -l nodes -d 'cases of the search at most: 0 to 100000'
complete -c mdvsp -n '__fish_seen_subcommand_from solve resume trace' -x -l seconds -d 'seconds of the search at most: 1 to 86400'
complete -c mdvsp -n '__fish_seen_subcommand_from solve resume trace' -x -l gap -d 'gap between cost and bound at which the search ends: 0 to 1000000'
complete -c mdvsp -n '__fish_seen_subcommand_from solve resume trace replay check blocks network peak peakcheck' -F
