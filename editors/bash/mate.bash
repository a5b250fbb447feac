# Completion for bash of the words of mate, mate-explain, mate-view, mate-sweep and mate-page: `source editors/bash/mate.bash`.
# Nothing that a file holds is ever expanded: a line of a file is offered only where it gives a whole name, and
# names are compared here and not by `compgen -W`, which expands its words.

# The names of the handlers of a description's file (or of the built-in machine), a line each.
_mate_handlers() {
    if [[ $1 == builtin ]]; then
        echo main
    elif [[ -f $1 ]]; then
        awk '/^[ \t]*\[\[[ \t]*handler[ \t]*\]\]/ { on = 1; next }
            /^[ \t]*\[/ { on = 0 }
            on && sub(/^[ \t]*name[ \t]*=[ \t]*["\047]/, "") && match($0, /^[A-Za-z_][A-Za-z0-9_]*["\047]/) { print substr($0, 1, RLENGTH - 1) }' <"$1"
    fi 2>/dev/null
}

# WORD: machines, a line each: the built-in one, files of descriptions, and folders.
_mate_machines() {
    compgen -W builtin -- "$1"
    compgen -f -X '!*.toml' -- "$1"
    compgen -d -- "$1"
}

# FILE WORDS: whether the first word in a file, behind empty lines and comments, is one of these words, as in a|b.
_mate_begins() {
    local line count=0
    while ((count++ < 100)) && { IFS= read -r -n 1000 line || [[ $line ]]; }; do
        [[ $line =~ ^[[:space:]]*(#.*)?$ ]] && continue
        [[ $line =~ ^[[:blank:]]*($2)([[:space:]]|$) ]]
        return
    done <"$1" 2>/dev/null
    return 1
}

# WORD WORDS: files that begin with one of these words, and folders, a line each; or all files where no file does.
_mate_scripts() {
    local file count=0 found=''
    while IFS= read -r file; do
        ((count++ < 500)) || break
        if [[ -f ${file/#~\//$HOME/} ]] && _mate_begins "${file/#~\//$HOME/}" "$2"; then
            found=yes
            printf '%s\n' "$file"
        fi
    done < <(compgen -f -- "$1")
    if [[ $found ]]; then compgen -d -- "$1"; else compgen -f -- "$1"; fi
}

_mate() {
    local LC_ALL=C word=${COMP_WORDS[COMP_CWORD]} words=() i name machine='' flags='--brief --fold'
    COMPREPLY=()
    for ((i = 1; i < COMP_CWORD; i++)); do
        case ${COMP_WORDS[i]} in --brief | --fold | --) ;; *) words+=("${COMP_WORDS[i]}") ;; esac
    done
    if [[ $word == -* ]]; then
        case ${words[0]-} in table | check | expand | feed) flags= ;; compile | audit) flags=--fold ;; esac
        mapfile -t COMPREPLY < <(compgen -W "$flags" -- "$word")
        return
    fi
    case ${#words[@]}:${words[0]-} in
        0:*) mapfile -t COMPREPLY < <(compgen -W 'node sim gen table compile check expand feed audit' -- "$word") ;;
        1:node | 1:sim | 1:table | 1:compile | 1:check | 1:feed | 1:audit | 2:gen) machine=yes ;;
        1:gen | 3:compile) mapfile -t COMPREPLY < <(compgen -W 1 -- "$word") ;;
        2:compile)
            while IFS= read -r name; do
                [[ $name =~ ^[A-Za-z_][A-Za-z0-9_]*$ && $name == "$word"* ]] && COMPREPLY+=("$name")
            done < <(_mate_handlers "${words[1]}") ;;
        4:compile | 1:expand) mapfile -t COMPREPLY < <(compgen -f -X '!*.ts' -- "$word"; compgen -d -- "$word") ;;
        2:sim) mapfile -t COMPREPLY < <(_mate_scripts "$word" nodes) ;;
        2:node) mapfile -t COMPREPLY < <(_mate_scripts "$word" "$_mate_steps") ;;
        2:audit) mapfile -t COMPREPLY < <(_mate_scripts "$word" "nodes|$_mate_steps") ;;
        2:check | 2:feed | 3:audit) mapfile -t COMPREPLY < <(compgen -f -- "$word") ;;
    esac
    [[ -z $machine ]] || mapfile -t COMPREPLY < <(_mate_machines "$word")
}
_mate_steps='install|load|post|step|run|answer|show|reset'

# mate-view: views, options and file names.
_mate_view() {
    local LC_ALL=C word=${COMP_WORDS[COMP_CWORD]} before=${COMP_WORDS[COMP_CWORD - 1]} view='' i
    COMPREPLY=()
    for ((i = 1; i < COMP_CWORD; i++)); do
        case ${COMP_WORDS[i]} in timeline | spread | csv | waits | bounds | store | stats) view=${COMP_WORDS[i]}; break ;; esac
    done
    case $before in
        --vm) mapfile -t COMPREPLY < <(_mate_machines "$word"); return ;;
        --what) mapfile -t COMPREPLY < <(compgen -W 'events spread calls' -- "$word"); return ;;
        --world) mapfile -t COMPREPLY < <(_mate_scripts "$word" nodes); return ;;
        --only)
            # the kinds behind the last comma
            local list=${word%"${word##*,}"}
            mapfile -t COMPREPLY < <(compgen -P "$list" -W 'invocations installs drops resets vectors statuses fragments messages losses noise intervals' -- "${word##*,}")
            return ;;
        --from | --to | --nodes) return ;;
    esac
    if [[ $word == -* ]]; then
        local options='--vm --version'
        case $view in
            timeline) options='--vm --from --to --nodes --only --events' ;;
            spread) options='--vm --world --from --to --nodes --events' ;;
            csv) options='--vm --what --json' ;;
            waits) options='--vm --json' ;;
            bounds) options='--vm --world --json' ;;
            store) options='--vm --json --svg --from --to --nodes --events' ;;
            stats) options='--vm --from --to --events --json' ;;
        esac
        mapfile -t COMPREPLY < <(compgen -W "$options" -- "$word")
    elif [[ -z $view ]]; then
        mapfile -t COMPREPLY < <(compgen -W 'timeline spread csv waits bounds store stats' -- "$word")
    else
        mapfile -t COMPREPLY < <(compgen -f -- "$word")
    fi
}

# FILE: the names in braces in a world.
_mate_names() {
    [[ -f $1 ]] && head -c 1048576 -- "$1" 2>/dev/null | LC_ALL=C grep -aoE '\{[A-Za-z_][A-Za-z0-9_]*\}' | tr -d '{}' | sort -u
}

# FILE: the columns of a CSV whose names hold no sign but letters, digits and _.
_mate_columns() {
    [[ -f $1 ]] && head -c 65536 -- "$1" 2>/dev/null | head -n 1 | tr , '\n' | LC_ALL=C grep -axE '[A-Za-z_][A-Za-z0-9_]*'
}

# mate-sweep: options, machines, worlds, names in the world, and columns of a sweep's CSV.
_mate_sweep() {
    local LC_ALL=C word=${COMP_WORDS[COMP_CWORD]} words=() option='' view='' out=sweep.csv i name
    COMPREPLY=()
    for ((i = 1; i < COMP_CWORD; i++)); do
        case $option:${COMP_WORDS[i]} in
            --?*:=) ;;
            --out:?*) out=${COMP_WORDS[i]} option='' ;;
            --?*:?*) option='' ;;
            :--) return ;;
            :--out | :--mate | :--seconds | :--block | :--percentiles) option=${COMP_WORDS[i]} ;;
            :--table | :--plot | :--distribution) view=yes ;;
            :=) option=--value ;;
            :--*) ;;
            *) words+=("${COMP_WORDS[i]}") ;;
        esac
    done
    # (bash takes the sign = for a word of its own)
    [[ $word != = ]] || word='' option=--value
    case $option in
        --out | --mate) mapfile -t COMPREPLY < <(compgen -f -- "$word"); return ;;
        --?*) return ;;
    esac
    if [[ $word == -* ]]; then
        mapfile -t COMPREPLY < <(compgen -W '--out --mate --seconds --again --anew --slurm --block --table --percentiles --plot --distribution --help' -- "$word")
    elif [[ $view ]]; then
        while IFS= read -r name; do
            [[ $name != "$word"* ]] || COMPREPLY+=("$name")
        done < <(_mate_columns "$out")
    else
        case ${#words[@]} in
            0) mapfile -t COMPREPLY < <(_mate_machines "$word") ;;
            1) mapfile -t COMPREPLY < <(_mate_scripts "$word" nodes) ;;
            *)
                compopt +o filenames -o nospace 2>/dev/null
                while IFS= read -r name; do
                    [[ $name != "$word"* || " ${words[*]:2} " == *" $name "* ]] || COMPREPLY+=("$name=")
                done < <(_mate_names "${words[1]}") ;;
        esac
    fi
}

# mate-page: options, machines, worlds, then files.
_mate_page() {
    local LC_ALL=C word=${COMP_WORDS[COMP_CWORD]} i count=0 option=''
    COMPREPLY=()
    for ((i = 1; i < COMP_CWORD; i++)); do
        case $option:${COMP_WORDS[i]} in
            --vm:?*) option='' ;;
            :--vm) option=--vm ;;
            :-?*) ;;
            *) count=$((count + 1)) ;;
        esac
    done
    if [[ $option ]]; then
        mapfile -t COMPREPLY < <(_mate_machines "$word")
    elif [[ $word == -* ]]; then
        mapfile -t COMPREPLY < <(compgen -W '--vm --help' -- "$word")
    elif ((count == 0)); then
        mapfile -t COMPREPLY < <(_mate_scripts "$word" nodes)
    else
        mapfile -t COMPREPLY < <(compgen -f -- "$word")
    fi
}
complete -o filenames -F _mate_page mate-page
complete -o filenames -F _mate_sweep mate-sweep sweep
complete -o filenames -F _mate_view mate-view ./mate-view
complete -o filenames -F _mate mate ./mate explain ./explain mate-explain
