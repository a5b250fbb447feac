# shellcheck shell=bash
# Read by ./explain: how a run ends.

# KIND: the lines of the source at $path in which this fault can arise.
fault_lines() {
    tokens | awk -v kind="$1" '
        { row[NR] = $2; token[NR] = $3 }
        END {
            for (i = 1; i <= NR; i++) {
                t = token[i]; behind = token[i + 1]; then_ = token[i + 2]
                # (what is divided by a number but 0 never faults)
                if (kind == "divzero") can = (t == "/" || t == "%") && !(behind ~ /^[0-9]+$/ && behind + 0 > 0)
                else if (kind == "index") can = t == "[" && behind != "]"
                else if (kind == "bufferfull") can = t == "[" && behind == "]" && then_ == "="
                else if (kind == "bufferempty") can = t == "[" && behind == "]" && then_ != "="
                else can = (t == "for" || t == "while") && token[i - 1] != "end"
                if (can) print row[i]
            }
        }' | uniq
}

# What a report tells of its faults and its end, a line each: `fault HANDLER VERSION KIND COUNT EVENT TIME NODE INVOCATION`, `drop HANDLER
# CAUSE COUNT EVENT TIME NODE`, `cut HANDLER BY COUNT EVENT TIME NODE`, `void CAUSE COUNT EVENT TIME NODE` and, of installs where the store
# held values, `emptied COUNT EVENT TIME NODE`, with the first of its kind and how many there were; and `waits NODE INVOCATION HANDLER
# CONTEXT FUNCTION`, `ready NODE INVOCATION HANDLER CONTEXT` and `queued` with the same, the image of its code, and three words for each
# live invocation before it: number, handler, image.
ends_of_report() {
    awk '
        function tell(what, where) { if (!count[what]++) { order[++kinds] = what; first[what] = where } }
        { key = $3 " " $5 }
        $4 == "post" { handler[key] = $6; context[key] = $7; state[key] = "queued" }
        $4 == "drop" { tell("drop " $5 " " $6, $1 " " $2 " " $3) }
        $4 == "start" || $4 == "answer" { state[key] = "ready" }
        $4 == "ask" { state[key] = "waits"; asked[key] = $6 }
        $4 == "fault" { tell("fault " handler[key] " " version[$3, handler[key]] " " $6, $1 " " $2 " " $3 " " $5) }
        $4 == "halt" || $4 == "fault" { delete state[key] }
        # an era ends: what ran on this node is cut
        $4 == "install" || $4 == "reset" {
            for (k in state) if (index(k, $3 " ") == 1) { tell("cut " handler[k] " " $4, $1 " " $2 " " $3); delete state[k] }
        }
        $4 == "seen" { held = $0 ~ /=-?[1-9]|=\[-?[0-9]/ }
        $4 == "install" && held { tell("emptied", $1 " " $2 " " $3) }
        $4 == "install" { version[$3, $5] = $6; image[$3, $5] = $7 }
        $4 == "void" { tell("void " $5, $1 " " $2 " " $3) }
        function code(k,   part) { split(k, part, " "); return image[part[1], handler[k]] }
        function before(k,   part, other, all, i) {
            split(k, part, " ")
            for (i = 1; i < part[2]; i++) { other = part[1] " " i; if (other in state) all = all " " i " " handler[other] " " code(other) }
            return code(k) all
        }
        END {
            for (i = 1; i <= kinds; i++) print order[i], count[order[i]], first[order[i]]
            for (k in state) print state[k], k, handler[k], context[k], state[k] == "queued" ? before(k) : asked[k] | "sort -k2,2n -k3,3n"
        }'
}

# Of the invocations of a world that wait for the same, on whatever nodes, the first alone, with the number of the others behind it.
first_of_each() {
    awk '
        { key = $1 == "waits" ? $4 " " $6 : NR }
        key in at { more[at[key]]++; next }
        { at[key] = ++count; text[count] = $0 }
        END { for (i = 1; i <= count; i++) print text[i] (i in more ? " " more[i] : "") }'
}

# IMAGE: what its code locks.
locks_of() {
    "$program" check -- "$vm" /dev/stdin <<<"$1" 2>/dev/null | sed -n 's/^locks //p'
}

# LOCKS LOCKS: what both use and one of them writes.
conflicts() {
    local own other
    for own in $1; do
        for other in $2; do
            [ "${own%:r}" != "${other%:r}" ] || [ "$own$other" = "${own%:r}:r${own%:r}:r" ] || echo "${own%:r}"
        done
    done
}

# HANDLER VERSION: the source that the script installs as this version, into $source.
source_of() {
    source=$(HANDLER=$1 VERSION=$2 awk '
        $1 == "install" && $2 == ENVIRON["HANDLER"] && $3 == ENVIRON["VERSION"] { print $4; exit }
        $1 == "at" && $3 == "inject" && $5 == ENVIRON["HANDLER"] && $6 == ENVIRON["VERSION"] { print $7; exit }' "$script" | tr -d '\r')
    [ -n "$source" ] && find_again "$source" && [ "$(wc -c <"$path")" -le $longest ]
}

# KIND: a fault in words.
fault_words() {
    case $1 in
    divzero) echo 'it divided by 0' ;;
    index) echo 'an index was outside of its buffer or message' ;;
    bufferfull) echo 'a buffer had ten values and was given one more' ;;
    bufferempty) echo 'a value was taken from an empty buffer' ;;
    overrun) echo 'it went back more often than `turns` allows' ;;
    esac
}

tell_fault() { # HANDLER VERSION KIND COUNT EVENT TIME NODE INVOCATION
    local rows=() where='' times=''
    if source_of "$1" "$2"; then
        mapfile -t rows < <(fault_lines "$3")
        where=" ($(shown_name "$source")"
        case ${#rows[@]} in
        0) where="$where)" ;;
        1) where="$where, line ${rows[0]})" ;;
        *) where="$where, one of the lines $(listed "${rows[@]}"))" ;;
        esac
    fi
    [ "$4" -eq 1 ] || times=" The same happened $(counted $(($4 - 1)) 'more time')."
    echo "event $5: invocation $8 of \`$1\` version $2 on node $7 ended by a fault: $(fault_words "$3")$where.$times"
}

tell_drop() { # HANDLER CAUSE COUNT EVENT TIME NODE
    local why="nothing was installed for it"
    [ "$2" = nocode ] || why="all its contexts were taken (\`contexts\` in its machine gives it up to 4)"
    echo "$(counted "$3" event) for \`$1\` $(was "$3") dropped, first in event $4 on node $6: $why."
}

tell_cut() { # HANDLER BY COUNT EVENT TIME NODE
    echo "$(counted "$3" invocation) of \`$1\` $(was "$3") cut by $([ "$2" = reset ] && echo 'a reset' || echo 'an install'), first in event $4 on node $6."
}

tell_void() { # CAUSE COUNT EVENT TIME NODE
    local times='' text='a line' why='no invocation in its context waited for an answer'
    [ "$1" != notready ] || why='no invocation in its context was ready'
    [ "$1" != notnewer ] || why='the node held this version already, or a newer one'
    # (each step of a node's script is one event)
    if [ "${words[0]}" = node ]; then
        text="\`$(awk -v step="$3" 'NF && $1 !~ /^#/ && ++count == step { print; exit }' "$script" | tr -d '\r' | visible | cut -c1-80)\`"
    fi
    [ "$2" -eq 1 ] || times=" The same happened $(counted $(($2 - 1)) 'more time')."
    echo "event $3: $text did nothing on node $5: $why.$times"
}

tell_emptied() { # COUNT EVENT TIME NODE
    local times=''
    [ "$1" -eq 1 ] || times=" The same happened $(counted $(($1 - 1)) 'more time')."
    echo "event $2: the store of node $4 held values, and the install emptied it.$times"
}

was() {
    if [ "$1" = 1 ]; then echo was; else echo were; fi
}

# IMAGE [INVOCATION HANDLER IMAGE] ..: for which of the others an invocation with this code waits.
waits_for() {
    local own all=() common
    own=$(locks_of "$1")
    shift
    while [ $# -ge 3 ]; do
        mapfile -t common < <(conflicts "$own" "$(locks_of "$3")")
        [ ${#common[@]} -eq 0 ] || all+=("invocation $1 of \`$2\` ($(quoted "${common[@]}"))")
        shift 3
    done
    listed "${all[@]:-others that use what it uses}"
}

tell_end() { # STATE NODE INVOCATION HANDLER CONTEXT [FUNCTION MORE, or what is told of a queued one]
    local who="at the end invocation $3 of \`$4\`, in context $5 of node $2," more=''
    case $1 in
    waits)
        if [ "${words[0]}" = node ]; then echo "$who still waits for the answer of \`$6\`: a line \`answer $5 V\` gives it."
        else
            [ -z "${7-}" ] || more=" The same holds of $(counted "$7" other)."
            echo "$who still waits for the answer of \`$6\`, which comes later than \`until\`.$more"
        fi ;;
    ready) echo "$who is ready and had no turn: a line \`run\`, or \`step $5 N\`, gives it one." ;;
    queued) echo "$who hasn't started: it waits for $(waits_for "${@:6}")." ;;
    esac
}

# Whether all files of the run can be read again; puts the path of its script into $script.
can_run_again() {
    local file
    script=/dev/null
    has_machine || return 1
    [ "${words[0]}" != gen ] || return 0
    find_again "${words[2]}" && script=$path || return 1
    while IFS= read -r file <&3; do
        find_again "$file" || return 1
    done 3< <(awk '$1 == "install" { print $4 } $1 == "load" { print $2 } $1 == "at" && $3 == "inject" { print $7 }' "$script" | tr -d '\r' | sort -u)
}

# Runs the command once more, as a whole report, and tells its faults, what was dropped and cut, and who is left.
show_end() {
    local parts told=0 whole=() word flags=yes script filter=first_of_each
    can_run_again || return 0
    for word in "$@"; do
        [ "$word" != -- ] || flags=''
        [ "$flags$word" = yes--brief ] || whole+=("$word")
    done
    [ "${words[0]}" != node ] || filter='cat'
    while read -ra parts <&3; do
        told=$((told + 1))
        [ $told -le 20 ] || { echo '..'; break; }
        case ${parts[0]} in
        fault | drop | cut | void | emptied) "tell_${parts[0]}" "${parts[@]:1}" ;;
        *) tell_end "${parts[@]}" ;;
        esac
    done 3< <("$program" "${whole[@]}" 2>/dev/null | ends_of_report | "$filter")
}
