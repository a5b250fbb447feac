# Completion for fish of the words of mate, mate-explain, mate-view, mate-sweep and mate-page: a folder of $fish_complete_path has this file, and links to it by the other names.
# Nothing that a file holds is ever run or expanded: a line of a file is offered only where it gives a whole name.

# The words before the one that is completed, without the program and the flags of mate.
function __mate_words
    for word in (commandline -opc)[2..-1]
        contains -- $word --brief --fold --; or echo -- $word
    end
end

# COMMAND N: whether the words before are N, the command the first of them; with `any`, N words of whatever command.
function __mate_at
    set -l words (__mate_words)
    test (count $words) -eq $argv[2]; and begin
        test $argv[2] -eq 0; or contains -- $words[1] (string split , -- $argv[1])
    end
end

# The names of the handlers of a description's file (or of the built-in machine), a line each.
function __mate_handlers
    set -l machine (__mate_words)[2]
    if test "$machine" = builtin
        echo main
    else if test -f "$machine"
        LC_ALL=C awk '/^[ \t]*\[\[[ \t]*handler[ \t]*\]\]/ { on = 1; next }
            /^[ \t]*\[/ { on = 0 }
            on && sub(/^[ \t]*name[ \t]*=[ \t]*["\047]/, "") && match($0, /^[A-Za-z_][A-Za-z0-9_]*["\047]/) { print substr($0, 1, RLENGTH - 1) }' <"$machine" 2>/dev/null
    end
end

# Files whose name ends so, and folders; machines, with the built-in one.
function __mate_files
    __fish_complete_suffix $argv[1]
end

function __mate_machines
    echo builtin
    for path in (__fish_complete_path (commandline -ct))
        string match -q -r '(\.toml|/)$' -- (string split -f1 \t -- $path); and echo -- $path
    end
end

# WORDS: files whose first word, behind empty lines and comments, is one of these, as in a|b, and folders; or all files where no file's is.
function __mate_scripts
    set -l all (__fish_complete_path (commandline -ct) | string split -f1 \t)
    set -l found
    for path in $all[1..500]
        if test -f "$path"
            LC_ALL=C awk -v words="^[ \t]*($argv[1])[ \t\r]*" 'NR > 100 { exit 1 } /^[ \t\r]*(#.*)?$/ { next } { found = match($0 " ", words "([ \t]|$)") == 1; exit !found } END { exit !found }' \
                <"$path" 2>/dev/null; and set -a found $path
        end
    end
    if set -q found[1]
        printf '%s\n' $found
        string match -- '*/' $all
    else
        printf '%s\n' $all
    end
end

set -l steps 'install|load|post|step|run|answer|show|reset'
for program in mate mate-explain
    complete -c $program -f
    complete -c $program -n '__mate_at any 0' -a 'node sim gen table compile check expand feed audit'
    complete -c $program -n '__mate_at node,sim,table,compile,check,feed,audit 1; or __mate_at gen 2' -a '(__mate_machines)'
    complete -c $program -n '__mate_at gen 1; or __mate_at compile 3' -a 1
    complete -c $program -n '__mate_at compile 2' -a '(__mate_handlers)'
    complete -c $program -n '__mate_at compile 4; or __mate_at expand 1' -a '(__mate_files .ts)'
    complete -c $program -n '__mate_at sim 2' -a '(__mate_scripts nodes)'
    complete -c $program -n '__mate_at node 2' -a "(__mate_scripts '$steps')"
    complete -c $program -n '__mate_at audit 2' -a "(__mate_scripts 'nodes|$steps')"
    complete -c $program -n '__mate_at check,feed 2; or __mate_at audit 3' -F
    complete -c $program -n 'contains -- (__mate_words)[1] node sim gen' -l brief -d 'the summary of a report'
    complete -c $program -n 'contains -- (__mate_words)[1] node sim gen compile audit' -l fold -d 'fold sources before they are compiled'
end
complete -c mate-explain -n '__mate_at any 0' -l help -d 'the commands'
complete -c mate-explain -n '__mate_at any 0' -l version -d 'the version'

set -l views timeline spread csv waits bounds store stats
complete -c mate-view -n "not __fish_seen_subcommand_from $views" -f -a "$views"
complete -c mate-view -n "not __fish_seen_subcommand_from $views" -l version -d 'the version'
complete -c mate-view -l vm -x -a '(__mate_machines)' -d 'the machine'
complete -c mate-view -n '__fish_seen_subcommand_from timeline spread store stats' -l from -x -d 'the first ms, or event'
complete -c mate-view -n '__fish_seen_subcommand_from timeline spread store stats' -l to -x -d 'the last ms, or event'
complete -c mate-view -n '__fish_seen_subcommand_from timeline spread store' -l nodes -x -d 'nodes, as 0,3,8-15'
complete -c mate-view -n '__fish_seen_subcommand_from timeline' -l only -x -a 'invocations installs drops resets vectors statuses fragments messages losses noise intervals' -d 'what is drawn'
complete -c mate-view -n '__fish_seen_subcommand_from timeline spread store stats' -l events -d 'over events in place of ms'
complete -c mate-view -n '__fish_seen_subcommand_from spread bounds' -l world -x -a '(__mate_scripts nodes)' -d 'the world that was run'
complete -c mate-view -n '__fish_seen_subcommand_from csv' -l what -x -a 'events spread calls' -d 'the rows'
complete -c mate-view -n '__fish_seen_subcommand_from csv waits bounds store stats' -l json -d 'objects, one a line'
complete -c mate-view -n '__fish_seen_subcommand_from store' -l svg -d 'a picture'

# The words of a sweep but its options and their values.
function __mate_sweep_words
    set -l option ''
    for word in (commandline -opc)[2..-1]
        if test -n "$option"
            set option ''
        else if contains -- $word --out --mate --seconds --block --percentiles
            set option $word
        else if not string match -q -- '--*' $word
            echo -- $word
        end
    end
end

# The names in braces in the world.
function __mate_sweep_names
    set -l world (__mate_sweep_words)[2]
    test -f "$world"; and head -c 1048576 -- "$world" 2>/dev/null | LC_ALL=C grep -aoE '\{[A-Za-z_][A-Za-z0-9_]*\}' | string trim -c '{}' | sort -u | string replace -r '$' =
end

complete -c mate-sweep -f
complete -c mate-sweep -n 'test (count (__mate_sweep_words)) -eq 0' -a '(__mate_machines)'
complete -c mate-sweep -n 'test (count (__mate_sweep_words)) -eq 1' -a '(__mate_scripts nodes)'
complete -c mate-sweep -n 'test (count (__mate_sweep_words)) -ge 2' -a '(__mate_sweep_names)'
complete -c mate-sweep -l out -r -F -d 'the CSV'
complete -c mate-sweep -l mate -r -F -d 'the program'
complete -c mate-sweep -l seconds -x -d 'how long a run may take'
complete -c mate-sweep -l again -d 'runs that failed are done again'
complete -c mate-sweep -l anew -d 'all runs are done anew'
complete -c mate-sweep -l slurm -d 'as a job array'
complete -c mate-sweep -l block -x -d 'runs a job'
complete -c mate-sweep -l table -d 'a table of a column'
complete -c mate-sweep -l percentiles -x -d 'which ones a table has'
complete -c mate-sweep -l plot -d 'a plot of a column over another'
complete -c mate-sweep -l distribution -d 'the distribution of a column'
complete -c mate-sweep -l help -d 'the words'

# How many words of a page come before the one that is completed, without --vm and its machine.
function __mate_page_words
    set -l option ''
    for word in (commandline -opc)[2..-1]
        if test -n "$option"
            set option ''
        else if test "$word" = --vm
            set option $word
        else if not string match -q -- '-?*' $word
            echo -- $word
        end
    end
end

complete -c mate-page -f
complete -c mate-page -n 'test (count (__mate_page_words)) -eq 0' -a '(__mate_scripts nodes)'
complete -c mate-page -n 'test (count (__mate_page_words)) -eq 1' -F
complete -c mate-page -l vm -x -a '(__mate_machines)' -d 'the machine'
complete -c mate-page -l help -d 'the words'
