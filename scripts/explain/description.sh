# shellcheck shell=bash
# Read by ./explain: refusals of a machine's description.

# TEXT: the line of `table` for a description of this text.
refusal_of() {
    printf '%s\n' "$1" >"$room/part.toml"
    { "$program" table "$room/part.toml" >/dev/null; } 2>&1
}

# N: the same for its first N lines.
refusal_of_first() {
    refusal_of "$(head -n "$1" "$path")"
}

# N: of a description with N lines that is no TOML, the line up to which it is, into $place. Behind a value of many lines, which is
# no TOML where it is cut, the search goes on.
line_of_toml() {
    local good=0 bad=$1 middle ahead
    while :; do
        while [ $((bad - good)) -gt 1 ]; do
            middle=$(((good + bad) / 2))
            if [ "$(refusal_of_first "$middle")" = "$line" ]; then bad=$middle; else good=$middle; fi
        done
        place=$bad
        for ((ahead = bad + 1; ahead < bad + 20 && ahead < $1; ahead++)); do
            [ "$(refusal_of_first "$ahead")" = "$line" ] || { good=$ahead; break; }
        done
        [ "$good" -ge "$place" ] || return 0
        bad=$1
    done
}

# N: of a description with N lines that has a key which no description has, the line where the first one begins, into $place.
line_of_unknown() {
    local known=0 low=0 high=$1 middle at answer
    while [ $((high - low)) -gt 1 ]; do
        middle=$(((low + high) / 2))
        # (where a value of many lines is cut, what stands before it tells)
        for ((at = middle; at > low; at--)); do
            answer=$(refusal_of_first "$at")
            [ "$answer" = 'bad description toml' ] || break
        done
        if [ $at -eq $low ]; then low=$middle; elif [ "$answer" = "$line" ]; then high=$at; else known=$at low=$middle; fi
    done
    place=$((known + 1))
}

# WORD: the number of the line on which the refusal hangs, into $place: without it, or with a right value there, it isn't the same. The
# line gives this key a value; or, with `last`, it is the last of several with this word.
line_without() {
    local number value='' found=() word="(^|[^A-Za-z0-9_])$1[\"']?[[:blank:]]*="
    [ "${2-}" != last ] || word="(^|[^A-Za-z0-9_])$1([^A-Za-z0-9_]|\$)"
    case $1 in
    vm) value='vm = 1' ;;
    name) value='name = "another_name_"' ;;
    kind) value='kind = "sense"' ;;
    esac
    while IFS= read -r number; do
        [ "$(refusal_of "$(sed "${number}c\\$value" "$path")")" = "$line" ] || found+=("$number")
    done < <(grep -nE -- "$word" "$path" | cut -d: -f1 | tail -n 24)
    [ ${#found[@]} -eq 1 ] || { [ ${#found[@]} -gt 1 ] && [ "${2-}" = last ]; } || return 1
    place=${found[-1]}
}

# WORD N KEY: of a description with N lines the first table `[[WORD]]` up to whose end it is refused in the same way: its line that gives
# the key a value, or else its first line, into $place.
line_of_table() {
    local starts=() at end
    mapfile -t starts < <(grep -nE '^[[:blank:]]*\[' "$path" | cut -d: -f1 | head -n 40)
    for ((at = 0; at < ${#starts[@]}; at++)); do
        end=$((${starts[at + 1]:-$(($2 + 1))} - 1))
        [[ $(sed -n "${starts[at]}p" "$path") =~ ^[[:blank:]]*'[['[[:blank:]]*$1[[:blank:]]*']]' ]] || continue
        [ "$(refusal_of_first "$end")" = "$line" ] || continue
        place=$(sed -n "${starts[at]},${end}p" "$path" | grep -nE -m 1 -- "^[[:blank:]]*[\"']?$3[\"']?[[:blank:]]*=" | cut -d: -f1)
        place=$((starts[at] + ${place:-1} - 1))
        return
    done
    return 1
}

# TABLE: the keys that docs/understanding/FORMATS.md has for a table of a description, or without a name those of the whole.
keys_of() {
    TABLE=$1 awk -F' *[|] *' '
        seen && $0 == "" { exit }
        $2 ~ /^`[a-z.]+`$/ {
            seen = 1; gsub(/`/, "", $2); count = split($2, part, ".")
            if (ENVIRON["TABLE"] == "") { if (!told[part[1]]++) print part[1] }
            else if (count == 2 && part[1] == ENVIRON["TABLE"]) print part[2]
        }' "$top/docs/understanding/FORMATS.md"
}

# N: which keys may stand where line N, which has a wrong one, stands.
tell_keys() {
    local text table='' keys=() key
    text=$(sed -n "$1{p;q;}" "$path")
    if [[ ! $text =~ ^[[:blank:]]*'[' ]]; then
        table=$(head -n "$1" "$path" | sed -nE 's/^[[:blank:]]*\[+[[:blank:]]*([A-Za-z_]+).*/\1/p' | tail -n 1)
    fi
    mapfile -t keys < <(keys_of "$table")
    [ ${#keys[@]} -gt 0 ] || return 0
    if [ -z "$table" ]; then echo "A description has $(quoted "${keys[@]}")."; return; fi
    echo "The table \`$table\` has $(quoted "${keys[@]}")."
    key=$(sed -E 's/^[[:blank:]]*([A-Za-z_]+)[[:blank:]]*=.*/\1/' <<<"$text")
    ! is_among "$key" vm shared buffers devices turns quantum || echo "\`$key\` stands before the first table."
}

# KEY: what docs/understanding/FORMATS.md says of a key of descriptions.
key_says() {
    KEY=$1 awk -F' *[|] *' '$2 == "`" ENVIRON["KEY"] "`" { print "`" ENVIRON["KEY"] "` is " $3 ($4 == "required" ? "; it must be there" : $4 == "none" ? "" : "; without it: " $4) "."; found = 1 }
        END { exit !found }' "$top/docs/understanding/FORMATS.md"
}

# The line begins with `bad description`.
explain_description() {
    local key='' place='' count
    find_again "$vm" && [ "$(wc -c <"$path")" -le $longest ] || return 1
    count=$(awk 'END { print NR }' "$path")
    case $line in
    *' toml') line_of_toml "$count" ;;
    *' field unknown') line_of_unknown "$count" ;;
    *' field '* | *' limit '*)
        key=${line##* }
        line_without "${key##*.}" || [[ $key != *.* ]] || line_of_table "${key%%.*}" "$count" "${key##*.}" ;;
    *' duplicate '*) line_without "${line##* }" last ;;
    esac
    [ -z "$place" ] || show_line "$vm" "$place"
    case $line in
    *' field unknown') echo 'No description has this key here (docs/understanding/FORMATS.md).'; [ -z "$place" ] || tell_keys "$place" ;;
    *' toml')
        echo 'Up to the line before this one the text is TOML.'
        key=$(sed -nE "$place{s/^[[:blank:]]*\\[(handler|function)\\].*/\\1/p;q;}" "$path")
        [ -z "$key" ] || echo "Write \`[[$key]]\`, with two brackets." ;;
    *' field '* | *' limit '*) key_says "$key" ;;
    *) return 1 ;;
    esac
}
