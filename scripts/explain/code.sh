# shellcheck shell=bash
# Read by ./explain: the code of capsules: a place in it, and what it costs.

# PLACE: the instructions round a place of the code of the capsule at $path, by the machine's opcode table.
show_code() {
    "$program" table -- "$vm" >"$room/table" 2>/dev/null || return 0
    awk -v place="$1" '
        function value(at, bytes,   v, i) { v = 0; for (i = 0; i < 2 * bytes; i++) v = v * 16 + index("0123456789abcdef", substr(code, 2 * at + 1 + i, 1)) - 1; return v }
        FNR == NR { name[$1] = $2; size[$1] = $3; next }
        { code = code tolower($0) }
        END {
            gsub(/[^0-9a-f]/, "", code); code = substr(code, 33)
            for (at = 0; 2 * at < length(code); at = after) {
                op = substr(code, 2 * at + 1, 2)
                operand = ""; after = at + 1
                if (op in name) {
                    after += size[op]
                    if (size[op] > 0) { operand = value(at + 1, size[op]); if (op == "01" && operand > 32767) operand -= 65536 }
                }
                lines[++n] = (at == place ? "> " : "  ") at " " (op in name ? name[op] : "?? " op) (operand == "" ? "" : " " operand)
                if (at == place) here = n
                if (!(op in name)) break
            }
            for (i = here - 3; i <= here + 3; i++) if (i in lines) print lines[i]
        }' "$room/table" "$path"
}

# IMAGE PLACES: whether the code of the image, begun with so many values on the stack, needs no more than 16: its places move along.
fits_above() {
    awk -v more="$2" '
        function number(hex,   v, i) { v = 0; for (i = 1; i <= length(hex); i++) v = v * 16 + index("0123456789abcdef", substr(hex, i, 1)) - 1; return v }
        FNR == NR { size[$1] = $3; next }
        {
            code = substr($0, 33); bytes = length(code) / 2 + more
            for (i = 0; i < more; i++) made = made "1b"
            for (at = 1; at < length(code); at += 2 + 2 * size[op]) {
                op = substr(code, at, 2); operand = substr(code, at + 2, 2 * size[op])
                if (op == "16" || op == "17" || op == "18") operand = sprintf("%04x", number(operand) + more)
                made = made op operand
            }
            print substr($0, 1, 8) (bytes > 512 ? "02" : "01") substr($0, 11, 18) sprintf("%04x", bytes) made
        }' "$room/table" "$1" >"$room/above"
    "$program" check -- "$vm" "$room/above" >/dev/null 2>&1
}

# What the source of a compile command costs: bytes, need of stack, and its code with names.
show_cost() {
    local low=0 high=17 middle size need=''
    has_machine && find_again "${words[4]}" || return 0
    "$program" "$@" >"$room/image" 2>/dev/null && "$program" check -- "$vm" "$room/image" >"$room/listing" 2>/dev/null || return 0
    "$program" table -- "$vm" >"$room/table" 2>/dev/null || return 0
    read -r _ _ _ size <"$room/listing"
    # (each value more is a byte more of code)
    if [ "$size" -le 1024 ]; then
        while [ $((high - low)) -gt 1 ]; do
            middle=$(((low + high) / 2))
            if fits_above "$room/image" $middle; then low=$middle; else high=$middle; fi
        done
        need=", $(counted $((16 - low)) value) on the stack of 16"
    fi
    echo "$(shown_name "${words[4]}"): $(counted "$size" byte) of code of 1040$need"
    know_machine "$vm"
    find_token 0
    show_listing
}

# The listing of a capsule with the names behind its numbers, which its opcodes tell; and which private names are those of shared
# variables, too.
show_listing() {
    local privates=() text kind='' place rest code op note
    for text in "${texts[@]}"; do
        case $text in
        shared | private | buffer) kind=$text ;;
        ';') kind='' ;;
        ,) ;;
        *) [ -n "$kind" ] || break
            [ "$kind" != private ] || privates+=("$text") ;;
        esac
    done
    code=$(tail -c +33 "$room/image")
    while read -r place rest; do
        note=''
        if [[ $place =~ ^[0-9]+$ && $rest =~ ' '([0-9]+)$ ]]; then
            op=$((16#${code:2 * place:2}))
            case $op in
            3 | 4) note=${shared[BASH_REMATCH[1]]-} ;;
            5 | 6) note=${privates[BASH_REMATCH[1]]-} ;;
            *) [ $op -lt $base_rows ] || note=${buffers[BASH_REMATCH[1]]-} ;;
            esac
        fi
        if [ -n "$note" ]; then printf '  %-24s%s\n' "$place $rest" "$note"; else echo "  $place${rest:+ $rest}"; fi
    done < <(tail -n +2 "$room/listing")
    for text in "${privates[@]}"; do
        ! is_among "$text" "${shared[@]}" || echo "\`$text\` is private here: it isn't the machine's shared variable of this name."
    done
}
