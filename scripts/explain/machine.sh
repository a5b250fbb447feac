# shellcheck shell=bash
# Read by ./explain: what a machine has, by the words of the program.

# VM: puts its handlers, functions (those that send, too), shared variables and buffers into lists, and into $base_rows how many rows the
# opcode table of every machine begins with.
know_machine() {
    local word rows
    # the built-in machine has no buffers and no functions
    base_rows=$("$program" table builtin 2>/dev/null | wc -l)
    handlers=() functions=() senders=() shared=() buffers=()
    mapfile -t handlers < <("$program" node --brief -- "$1" /dev/null 2>/dev/null | sed -n 's/^newest \([^ ]*\) .*/\1/p')
    for word in $("$program" node -- "$1" /dev/null 2>/dev/null | sed -n 's/^[0-9]* [0-9]* [0-9]* seen//p'); do
        case $word in *=[[]*) buffers+=("${word%%=*}") ;; *) shared+=("${word%%=*}") ;; esac
    done
    # behind the machine's own instructions stand its functions; those that send take a buffer
    rows=$base_rows
    [ ${#buffers[@]} -eq 0 ] || rows=$((base_rows + 6))
    while read -r _ word bytes; do
        functions+=("$word")
        [ "$bytes" = 0 ] || senders+=("$word")
    done < <("$program" table -- "$1" 2>/dev/null | tail -n "+$((rows + 1))")
    [ ${#handlers[@]} -gt 0 ]
}

# WORD OF ..: whether the word is one of the others.
is_among() {
    local word=$1 other
    shift
    for other in "$@"; do [ "$word" != "$other" ] || return 0; done
    return 1
}
