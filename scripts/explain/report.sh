# shellcheck shell=bash
# Read by ./explain: a report that `audit` refutes.

# NODE LAST NODES: whether the report's lines of this node, up to line LAST, are refuted by the law $law.
fails_up_to() {
    NODE=$1 LAST=$2 NODES=$3 awk '
        NR <= ENVIRON["LAST"] && $3 == ENVIRON["NODE"] && $4 !~ /^(interval|keep|sent|got|lost|noise)$/ { print; count++; event = $1 }
        END { print "end", count + 0, event + 0, ENVIRON["NODES"] }' "$path" >"$room/part"
    [ "$("$program" audit $fold -- "$vm" "${words[2]}" "$room/part" 2>&1)" = "refuted node $1 $law" ]
}

# WORD ..: the first line of the node with which its law is broken, which is found by trying shorter and shorter reports. Of the grant rule it
# is the last line of an event, since who may start does so by the end of it.
show_refuted() {
    local node law fold='' word report=${words[3]} low=0 high middle nodes
    [[ $line =~ ^'refuted node '([0-9]+)' '([a-z]+[0-9]*)$ ]] || return
    node=${BASH_REMATCH[1]} law=${BASH_REMATCH[2]}
    for word in "$@"; do
        [ "$word" != -- ] || break
        [ "$word" != --fold ] || fold=--fold
    done
    can_run_again && find_again "$report" || return
    nodes=$(tail -n 1 <"$path" | awk '{ print $4 }')
    # (the numbers of the lines that may be the last one, in order)
    mapfile -t ends < <(NODE=$node LAW=$law awk '$3 == ENVIRON["NODE"] && $1 ~ /^[0-9]+$/ { if (count && (ENVIRON["LAW"] != "d10" || $1 != event)) print last; last = NR; event = $1; count++ } END { print last }' "$path")
    high=$((${#ends[@]} - 1))
    while [ $low -lt $high ]; do
        middle=$(((low + high) / 2))
        if fails_up_to "$node" "${ends[middle]}" "$nodes"; then high=$middle; else low=$((middle + 1)); fi
    done
    if fails_up_to "$node" "${ends[low]}" "$nodes"; then show_line "$report" "${ends[low]}"; fi
}
