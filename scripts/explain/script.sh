# shellcheck shell=bash
# Read by ./explain: refusals of a script or a world.

# The forms of lines that docs/using/GUIDE.md tells for the command: `FORM|MEANING` a line, with backquotes taken out of the form.
forms() {
    HEADING=$([ "${words[0]}" = node ] && echo '## The steps of a script' || echo '### The lines of a world') awk -F' *[|] *' '
        /^#/ { on = $0 == ENVIRON["HEADING"] }
        on && $2 ~ /^`/ { count = split($2, form, /`, `/); for (i = 1; i <= count; i++) { gsub(/`/, "", form[i]); print form[i] "|" $3 } }
    ' "$top/docs/using/GUIDE.md"
}

# TEXT: the form of a line that begins as this one, and what it says.
form_of() {
    forms | FIRST=$1 awk -F'|' '
        BEGIN { split(ENVIRON["FIRST"], word, /[ \t]+/) }
        {
            split($1, part, " ")
            if (part[1] != word[1]) next
            all = all (all ? ", " : "") "`" $1 "`"
            if (part[1] == "at" && part[3] != word[3]) next
            form = form (form ? " or " : "") "`" $1 "`"; says = ": " $2
        }
        END { if (all) print form ? form says : "one of " all }'
}

# TEXT: the first word that is no number where the form of this line has one.
no_number() {
    forms | TEXT=$1 awk -F'|' '
        BEGIN { count = split(ENVIRON["TEXT"], word, /[ \t]+/) }
        {
            parts = split($1, part, " ")
            if (part[1] != word[1] || (part[1] == "at" && part[3] != word[3])) next
            for (i = 2; i <= count; i++) {
                wanted = i < parts || part[parts] != ".." ? part[i] : "V"
                if (word[i] ~ /^-?[0-9]+$/ || wanted !~ /^(N|S|MS|A|B|T|V|LOSS|NODE|CONTEXT|VERSION)$/) continue
                print word[i]
                exit
            }
        }'
}

# How many contexts the machine has, at most 16, as tried with a step in each.
count_contexts() {
    local count=1
    while [ $count -lt 16 ] && "$program" node --brief -- "$vm" /dev/stdin <<<"step $count 1" >/dev/null 2>&1; do count=$((count + 1)); done
    echo $count
}

# VERB: whose line this is, if it is none of the command's.
other_lines() {
    case ${words[0]}:$1 in
    node:nodes | node:random | node:until | node:link | node:both | node:series | node:suppress | node:at)
        echo "\`$1\` begins a line of a world, which \`sim\` runs." ;;
    sim:inject | sim:post | sim:show | sim:reset | sim:noise) echo "What happens in a world has a time: \`at T $1 ..\`." ;;
    sim:install | sim:load | sim:step | sim:run | sim:answer) echo "\`$1\` begins a line of a node's script, which \`node\` runs." ;;
    esac
}

# N: the install of the same handler before line N of the script, whose version is no smaller.
version_before() {
    tr -d '\r' <"$path" | LAST=$1 awk '
        { handler = version = "" }
        $1 == "install" { handler = $2; version = $3 }
        $1 == "at" && $3 == "inject" { handler = $5; version = $6 }
        NR == ENVIRON["LAST"] {
            if (!(handler in row)) exit
            where = $1 == "at" ? ", on whichever node." : "."
            print "Line " row[handler] " has version " held[handler] " of `" handler "`: give this one a greater version" where
            exit
        }
        handler != "" { row[handler] = NR; held[handler] = version }' | visible
}

# N M: whether the number N is greater than M.
is_over() {
    awk 'BEGIN { exit !(ARGV[1] + 0 > ARGV[2] + 0) }' "$1" "$2"
}

# The line begins with `file`: shows the line of the script that names the file.
show_naming() {
    local name=${line#file * } row
    [[ ${words[0]} =~ ^(node|sim)$ && $name != "$vm" && $name != "${words[2]}" ]] && find_again "${words[2]}" || return 0
    row=$(tr -d '\r' <"$path" | NAME=$name awk '
        $1 == "install" && $4 == ENVIRON["NAME"] || $1 == "load" && $2 == ENVIRON["NAME"] { print NR; exit }
        $1 == "at" && $3 == "inject" && $7 == ENVIRON["NAME"] { print NR; exit }')
    [ -z "$row" ] || show_line "${words[2]}" "$row"
}

# N CAUSE: what a line of a script should be.
explain_script() {
    local text form verbs=() part wrong until
    text=$(sed -n "$1{p;q;}" "$path" | tr -d '\r\000')
    text=${text#"${text%%[! $'\t']*}"}
    if [ "$2" = word ] && [ "${words[0]}" != node ]; then
        if [ "$1" -gt "$(awk 'END { print NR }' "$path")" ]; then echo 'The world ends too early: it begins with `nodes`, `random` and `until`.'; return; fi
        if [[ ! $text =~ ^at[$' \t'] ]] && head -n "$1" "$path" | grep -q '^[ '$'\t'']*at[ '$'\t'']'; then echo 'A setting stands before the first `at`.'; return; fi
    fi
    if [ "$2" = word ] && [[ $text == *[!\ -~$'\t']* ]]; then echo 'A script is printable ASCII, with blanks and tabs.'; return; fi
    form=$(form_of "$text")
    read -ra part <<<"$text"
    case $2 in
    word | number | range)
        if [ -z "$form" ]; then
            mapfile -t verbs < <(forms | sed 's/[ |].*//' | uniq)
            echo "A line begins with $(quoted "${verbs[@]}")."
            other_lines "${part[0]-}"
        else
            echo "Its form is $form."
            [ "$2" = word ] || [[ ! $text =~ ^both ]] || echo "And $(form_of link)."
            case $2:$text in
            number:*) wrong=$(no_number "$text"); [ -z "$wrong" ] || echo "\`$(shown_name "$wrong")\` is no whole number." ;;
            range:step* | range:answer*)
                wrong=$(count_contexts)
                ! is_over "${part[1]}" $((wrong - 1)) || echo "The machine has $(counted "$wrong" context), numbered from 0." ;;
            word:at*) ;;
            word:nodes* | word:random* | word:until*) echo 'A world begins with `nodes`, `random` and `until`, each once and in this order.' ;;
            word:*) echo 'It has all of these words and no more; the name of a file has no blank.' ;;
            range:at*)
                until=$(sed -n '/^[[:blank:]]*until/{s/[^0-9]//g;p;q;}' "$path")
                ! is_over "${part[1]}" "$until" || echo 'A time is at most that of `until`.' ;;
            range:link* | range:both*) is_over "${part[3]-}" 1000 || echo 'A link goes to another node, and stands once.' ;;
            esac
        fi ;;
    name)
        know_machine "$vm" || return 1
        if [[ $text =~ ^series ]]; then
            echo "Behind \`series\` and a node stands a function of the kind \`sense\`. The machine's functions: $(quoted "${functions[@]}")."
        else
            echo "The machine's handlers: $(quoted "${handlers[@]}")."
        fi ;;
    oldversion) version_before "$1" | grep . ;;
    *) return 1 ;;
    esac
}
