# shellcheck shell=bash
# Read by ./explain: refusals of a source.

# The tokens of the file at $path with their places, `PLACE LINE TOKEN` a line.
tokens() {
    tr '\000' ' ' <"$path" | awk '
        {
            line = $0; sub(/!.*/, "", line); from = 1
            while (match(substr(line, from), /[A-Za-z_][A-Za-z0-9_]*|[0-9]+|<>|<=|>=|[^ \t\r]/)) {
                print before + from + RSTART - 2, NR, substr(line, from + RSTART - 1, RLENGTH)
                from += RSTART + RLENGTH - 1
            }
            before += length($0) + 1
        }'
}

# PLACE: the token that begins there, those before and behind it, in $token, $previous, $next, and all in places, rows and texts; the
# rows of the token (none at the end) and of the one before it in $row and $previous_row.
find_token() {
    local place line text at=-1
    places=() rows=() texts=() token='' previous='' next='' row='' previous_row=''
    [ "$(wc -c <"$path")" -le $longest ] || return 1
    while read -r place line text; do
        places+=("$place") rows+=("$line") texts+=("$text")
        [ "$place" != "$1" ] || at=$((${#places[@]} - 1))
    done < <(tokens)
    index=$at
    [ "$at" -lt 0 ] && { [ ${#texts[@]} -eq 0 ] || previous=${texts[-1]} previous_row=${rows[-1]}; return 1; }
    token=${texts[at]} next=${texts[at + 1]-} row=${rows[at]}
    [ "$at" -eq 0 ] || previous=${texts[at - 1]} previous_row=${rows[at - 1]}
}

# TOKEN: whether some script of the language that the command reads begins with the tokens of $before and then this one.
fits() {
    local answer
    answer=$("$program" "${reading[@]}" /dev/stdin 2>&1 >/dev/null <<<"$before"$'\n'"$1")
    [[ ! $answer =~ ' unexpected '([0-9]+)$ || ${BASH_REMATCH[1]} -ne $((${#before} + 1)) ]]
}

# Adds to $may whether a statement begins behind $before, or which do.
begins_statement() {
    local word
    if fits clear; then may+=('a statement'); else for word in if while; do fits $word && may+=("\`$word\`"); done; fi
}

# TOKEN: what a token that was tried stands for.
named() { if [ "$1" = x ]; then echo 'a name'; else echo "\`$1\`"; fi; }

# PLACE: what may stand there in place of what does, tried token by token.
what_may_stand() {
    local may=() rest=() word reading=(compile builtin main 1) before fitting
    [ "$1" -le $longest ] || return 1
    before=$(head -c "$1" -- "$path" | tr '\000' ' '; echo .) && before=${before%.}
    [ "${words[0]}" != expand ] || reading=(expand)
    # (behind an operand neither a declaration nor an operand begins, and where an expression begins no statement does)
    if fits '*'; then
        begins_statement
        for word in x '('; do fits "$word" && [[ $word != x || ${may[*]-} != *'a statement'* ]] && may+=("$(named "$word")"); done
        may+=('an operator')
    else
        fits shared && may+=('a declaration')
        if fits 7; then
            if fits '('; then may+=('an expression'); else may+=('a number' '`-`'); fi
        else
            begins_statement
            for word in x '(' msg; do fits "$word" && [[ $word != x || ${may[*]-} != *'a statement'* ]] && may+=("$(named "$word")"); done
            if fits '<'; then may+=('a comparison'); elif fits '='; then may+=('`=`'); fi
        fi
    fi
    for word in ';' ',' ')' '[' ']' 'then' 'else' end to step next 'do' proc; do
        [[ $word =~ ^(do|proc)$ && ${words[0]} != expand ]] || rest+=("$word")
    done
    # (these are many, so they are tried side by side)
    fitting=$'\n'$(for word in "${rest[@]}"; do { ! fits "$word" || echo "$word"; } & done; wait)$'\n'
    for word in "${rest[@]}"; do
        [[ $fitting != *$'\n'"$word"$'\n'* ]] || may+=("\`$word\`")
    done
    [ ${#may[@]} -gt 0 ] && listed "${may[@]}"
}

# WORD: the keyword that this would be in small letters, if it is none as it stands.
small_keyword() {
    local small=${1,,} keywords=(shared private buffer 'if' 'then' 'else' 'end' 'for' to step next 'while' and or not size clear msg)
    [ "$small" != "$1" ] && is_among "$small" "${keywords[@]}" && echo "$small"
}

# What somebody may have meant who knows another language; fails if nothing is known.
explain_habit() {
    local small
    if [ -n "$previous_row" ] && [[ $(sed -n "$previous_row{p;q;}" "$path") =~ ^[^!]*[^![:blank:]][^!]*!= ]]; then
        echo "Line $previous_row ends at its \`!\`, which begins a comment: unequal is \`<>\`."
        return
    fi
    if small=$(small_keyword "$token") || small=$(small_keyword "$previous"); then
        echo "Keywords have small letters: \`$small\`."
        return
    fi
    case "$previous $token $next" in
    '= = '*) echo 'Equality is one `=`.' ;;
    'elseif '* | 'elsif '* | 'elif '*) echo 'Write `else`, and an `if` with an end of its own.' ;;
    *' + =' | *' - =' | *' * =' | *' / =') echo "Write \`$previous = $previous $token ..;\`." ;;
    *' / /') echo 'A comment begins with `!`.' ;;
    *' end for') echo 'A `for` ends with `next` and its variable.' ;;
    *' mod '*) echo 'The remainder is `%`.' ;;
    'proc '*) [ "${words[0]}" != expand ] && echo 'A source with procedures is expanded first: `mate expand SOURCE` writes the plain one.' ;;
    'do '*) [ "${words[0]}" != expand ] && echo '`do` is a name here: behind the condition of a `while` stand its statements.' ;;
    *' shared '* | *' private '* | *' buffer '*) echo 'Declarations stand at the head, before all else.' ;;
    *' proc '*) [ "${words[0]}" = expand ] && echo 'Procedures stand behind the declarations and before the statements.' ;;
    *) return 1 ;;
    esac
}

# PLACE: of the blocks that are open there the innermost one, `LINE KEYWORD`.
open_block() {
    tokens | AT=$1 COMMAND=${words[0]} awk '
        $1 >= ENVIRON["AT"] + 0 { exit }
        $3 == "end" || $3 == "next" { depth-- }
        ($3 ~ /^(if|for|while)$/ || $3 == "proc" && ENVIRON["COMMAND"] == "expand") && before != "end" { block[++depth] = $2 " " $3 }
        { before = $3 }
        END { if (depth > 0) print block[depth] }'
}

# PLACE MAY: what is missing before the place, as far as what may stand there tells.
explain_missing() {
    local line block
    if [[ $token =~ ^(=|'<>'|'<'|'>'|'<='|'>=')$ && $2 == *'an operator'* ]]; then
        echo 'Comparisons make no chain: write `a < b and b < c`.'
    elif [[ $2 == *'`;`'* && -n $row && $row != "$previous_row" ]]; then
        echo "Line $previous_row may lack its \`;\`."
    elif [[ $token == ';' && $2 == *'a statement'* ]]; then
        echo 'No `;` stands behind a block or another `;`.'
    elif [[ $token =~ ^(end|next|else|)$ && $2 == *'a statement'* ]]; then
        read -r line block < <(open_block "$1") || return 0
        case $block in
        for) echo "The \`for\` of line $line is open: it ends with \`next\` and its variable." ;;
        *) echo "The \`$block\` of line $line is open: it ends with \`end $block\`." ;;
        esac
    fi
}

explain_unexpected() {
    local may
    find_token "$1"
    may=$(what_may_stand "$1") || return 1
    if [ -n "$token" ]; then echo "\`$token\` doesn't fit here. Here may stand: $may."; else echo "The text ends too early. Here may stand: $may."; fi
    explain_habit || explain_missing "$1" "$may"
}

explain_byte() {
    local byte before
    byte=$(tail -c "+$(($1 + 1))" -- "$path" | head -c 1 | tr '\000-\037\177-\377' '?')
    before=$(head -c "$1" -- "$path" | tail -c 17 | tr '\000' ' ')
    case $byte in
    [A-Za-z0-9_])
        if [[ $before =~ [A-Za-z_][A-Za-z0-9_]{15}$ ]]; then echo 'Shorten the name: it has at most 16 bytes.'; else echo 'Put a blank between the number and the letter behind it.'; fi ;;
    .) if [[ $before =~ [0-9]$ ]]; then echo 'Numbers are whole: no token begins with `.`.'; else echo 'No token begins with `.`.'; fi ;;
    '#') echo 'No token begins with `#`: in a source a comment begins with `!`.' ;;
    '"' | "'") echo 'There are no texts in TinyScript: no token begins with this sign.' ;;
    '&') echo 'No token begins with `&`: write `and`.' ;;
    '|') echo 'No token begins with `|`: write `or`.' ;;
    '{' | '}') echo "No token begins with \`$byte\`: a block ends with \`end if\`, \`end while\` or \`next\`." ;;
    '?') echo 'No token begins with this byte: outside of comments a source is printable ASCII, with blanks, tabs and line ends.' ;;
    *) echo "No token begins with \`$byte\`." ;;
    esac
}

# WORD: how it was declared: shared, private, buffer or nothing. (after find_token)
declared_as() {
    local kind='' text
    for text in "${texts[@]}"; do
        case $text in
        shared | private | buffer) kind=$text ;;
        , | ';') ;;
        *) [ -n "$kind" ] || return 1
            [ "$text" != "$1" ] || { echo "$kind"; return; } ;;
        esac
        [[ $text != ';' ]] || kind=''
    done
}

explain_undeclared() {
    know_machine "$vm" && find_token "$2" || return 1
    if is_among "$1" "${functions[@]}"; then echo "\`$1\` is a function of the machine: call it, as \`$1(..)\`."
    elif is_among "$1" "${shared[@]}"; then echo "\`$1\` is a shared variable of the machine: declare it at the head, by \`shared $1;\`."
    elif is_among "$1" "${buffers[@]}"; then echo "\`$1\` is a buffer of the machine: declare it at the head, by \`buffer $1;\`."
    elif [ "$next" = '[' ]; then echo "Declare the buffer at the head, by \`buffer\`. The machine's buffers: $(quoted "${buffers[@]}")."
    else echo "Declare the name at the head: by \`private $1;\`, or by \`shared\` if the machine has a variable of this name (it has $(quoted "${shared[@]}"))."
    fi
}

# WORD: why the machine hasn't this name.
explain_notinvm() {
    know_machine "$vm" || return 1
    find_token 0
    [ ${#texts[@]} -gt 0 ] || return 1
    case $(declared_as "$1") in
    shared)
        if is_among "$1" "${buffers[@]}"; then echo "\`$1\` is a buffer of the machine, and no shared variable."
        else echo "The machine has no shared variable \`$1\`. It has: $(quoted "${shared[@]}")."; fi ;;
    buffer)
        if is_among "$1" "${shared[@]}"; then echo "\`$1\` is a shared variable of the machine, and no buffer."
        else echo "The machine has no buffer \`$1\`. It has: $(quoted "${buffers[@]}")."; fi ;;
    *) echo "The machine has no function \`$1\`. It has: $(quoted "${functions[@]}")." ;;
    esac
}

explain_kind() {
    local kind
    know_machine "$vm" && find_token "$1" || return 1
    kind=$(declared_as "$token")
    if [[ $token =~ ^[0-9] ]]; then echo "A step is from 1 to 32767, behind a \`-\` if it is negative; it isn't $token."
    elif [ "$previous" = next ]; then echo "The name behind \`next\` is the variable of its own \`for\`; \`$token\` isn't."
    elif [ "$next" = '(' ] && is_among "$token" "${senders[@]}" && [[ ${texts[index + 3]-} != ')' || $(declared_as "${texts[index + 2]-}") != buffer ]]; then
        echo "\`$token\` sends a buffer: its argument is the name of one."
    elif [ "$next" = '(' ]; then echo "No function is called in the limit of a \`for\`: call it before, and keep the answer in a variable."
    elif [ "$kind" = buffer ]; then echo "\`$token\` is a buffer, and a number is wanted here. One value of it is \`${token}[..]\`, and \`size($token)\` is their number."
    else echo "\`$token\` is a number, and a buffer is wanted here."
    fi
}

# INDEX: how many arguments stand in brackets behind the token with this index.
arguments_behind() {
    local at depth=0 given=0
    for ((at = $1 + 1; at < ${#texts[@]}; at++)); do
        case ${texts[at]} in
        '(' | '[') depth=$((depth + 1)) ;;
        ')' | ']') depth=$((depth - 1)) ;;
        ,) [ $depth -ne 1 ] || given=$((given + 1)) ;;
        esac
        [ $depth -ne 0 ] || break
    done
    [ "${texts[$1 + 2]-}" = ')' ] || given=$((given + 1))
    echo $given
}

# PLACE: how many arguments the function takes, as tried with each number of them, and how many are here.
explain_arity() {
    local args='' wanted='' count
    know_machine "$vm" && find_token "$1" || return 1
    if is_among "$token" "${senders[@]}"; then
        wanted=1
    else
        for count in 0 1 2 3 4; do
            "$program" compile -- "$vm" "${handlers[0]}" 1 /dev/stdin <<<"$token($args);" >/dev/null 2>&1 && wanted=$count
            args=${args:+$args,}0
        done
    fi
    [ -n "$wanted" ] && echo "\`$token\` takes $(counted "$wanted" argument), and here it has $(arguments_behind "$index")."
}

# PLACE: how many parameters the procedure has that stands behind this `do`, and how many arguments are here.
explain_params() {
    local at
    find_token "$1" || return 1
    for ((at = 0; at < index; at++)); do
        [ "${texts[at]} ${texts[at + 1]}" != "proc $token" ] || break
    done
    [ $at -lt "$index" ] || return 1
    echo "\`$token\` has $(counted "$(arguments_behind $((at + 1)))" parameter), and here it is given $(arguments_behind "$index")."
}

# PLACE: the procedures that a `do` here may run.
explain_noproc() {
    local at before='' procedures=() ended=()
    find_token "$1" || return 1
    for ((at = 0; at < index; at++)); do
        case "$before ${texts[at]}" in
        'end proc') ended=("${procedures[@]}") ;;
        *' proc') procedures+=("${texts[at + 1]}") ;;
        esac
        before=${texts[at]}
    done
    if [ ${#ended[@]} -eq 0 ]; then echo 'A `do` runs a procedure that ends before it, and there is none.'
    else echo "A \`do\` runs a procedure that ends before it: $(quoted "${ended[@]}")."; fi
}

# WORD N: the place of the N-th time that a word stands in the source, into $place; for a word of the declarations alone.
place_of() {
    local at count=0
    find_token 0
    for ((at = 0; at < ${#texts[@]}; at++)); do
        [ "${texts[at]}" != "$1" ] || count=$((count + 1))
        [ "$count" -ne "$2" ] || { place=${places[at]}; return; }
    done
    return 1
}

# The place of the ninth private variable, into $place.
ninth_private() {
    local at count=0 kind=''
    find_token 0
    for ((at = 0; at < ${#texts[@]}; at++)); do
        case ${texts[at]} in
        shared | private | buffer) kind=${texts[at]} ;;
        ,) ;;
        ';') kind='' ;;
        *) [ "$kind" != private ] || count=$((count + 1)) ;;
        esac
        [ $count -ne 9 ] || { place=${places[at]}; return; }
    done
    return 1
}

explain_deep() {
    find_token "$1" || return 1
    case $token in
    if | for | while | proc) echo 'This opens a block inside of 32: open fewer inside one another.' ;;
    *) echo 'This is the 65th operator or bracket since the last `;`, `then`, `else`, `end` or `next`: split the expression over private variables.' ;;
    esac
}

# The line begins with `bad source`.
explain_source() {
    local name verb word='' place=''
    if [[ $line =~ ^'bad source '(.*)' '(byte|literal|unexpected|deep|kind|arity|reserved|params)' '([0-9]+)$ ]]; then
        place=${BASH_REMATCH[3]}
    elif [[ $line =~ ^'bad source '(.*)' '(undeclared|noproc|again)' '([^ ]+)' '([0-9]+)$ ]]; then
        word=${BASH_REMATCH[3]} place=${BASH_REMATCH[4]}
    elif [[ $line =~ ^'bad source '(.*)' '(notinvm|twice)' '([^ ]+)$ ]]; then
        word=${BASH_REMATCH[3]}
    else
        [[ $line =~ ^'bad source '(.*)' '(privates)$ ]] || return 1
    fi
    name=${BASH_REMATCH[1]} verb=${BASH_REMATCH[2]}
    find_again "$name" || return 1
    case $verb in
    notinvm) place_of "$word" 1 ;;
    twice) place_of "$word" 2 ;;
    privates) ninth_private ;;
    esac
    [ -z "$place" ] || show_byte "$name" "$place"
    case $verb in
    unexpected | byte | deep | kind | arity | params | noproc) "explain_$verb" "$place" ;;
    undeclared) explain_undeclared "$word" "$place" ;;
    notinvm) explain_notinvm "$word" ;;
    *) return 1 ;;
    esac
}
