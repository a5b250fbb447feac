# shellcheck shell=bash
# Read by ./explain: how files and words are shown, and the sentences of docs/using/REFUSALS.md.

# NAME: puts the path at which this file can be read again into $path, or fails.
find_again() {
    case $1 in
    /dev/stdin | /dev/fd/0 | /proc/self/fd/0) path=$room/input; [ -f "$path" ] || path=/dev/stdin ;;
    /*) path=$1 ;;
    *) path=./$1 ;;
    esac
    [ -f "$path" ] && [ -r "$path" ]
}

# Whether the machine can be read again.
has_machine() {
    [ "$vm" = builtin ] || find_again "$vm"
}

# What a terminal shows of standard input: signs that would act on it are `?`.
visible() {
    tr '\000-\010\013-\037\177' '?'
}

# NAME: the same of a name, which may hold a line's end.
shown_name() {
    printf %s "$1" | tr '\000-\037\177' '?'
}

# N NOUN: a number with its noun.
counted() {
    if [ "$1" = 1 ]; then echo "$1 $2"; else echo "$1 $2s"; fi
}

# WORD ..: the words with commas between them; and the same in backquotes.
listed() {
    local text
    printf -v text ', %s' "$@"
    echo "${text:2}"
}

quoted() {
    if [ $# -eq 0 ]; then echo none; else listed "${@/%/\`}" | sed 's/^/`/; s/, /, `/g'; fi
}

# The sentence of docs/using/REFUSALS.md for a line: the row whose small words are those of the line, one after another.
sentence() {
    LINE=$1 awk -F' *[|] *' -v status="$status" '
        $2 == status && $3 ~ /^`/ {
            row = $3; gsub(/`/, "", row)
            count = split(row, part, " ")
            rest = " " ENVIRON["LINE"] " "; fits = 1
            for (i = 1; i <= count; i++) if (part[i] ~ /^[a-z]+[0-9]*$/) {
                at = index(rest, " " part[i] " ")
                if (!at) { fits = 0; break }
                rest = substr(rest, at + length(part[i]) + 1)
            }
            if (fits) { best = $4; last = count; for (i = 1; i <= count; i++) kept[i] = part[i] }
        }
        # the words in capitals are those of the line, counted from its end
        END {
            words = split(ENVIRON["LINE"], word, " ")
            many = split(best, said, " ")
            for (i = 1; i <= many; i++) {
                for (j = 1; j <= last; j++) if (kept[j] ~ /^(N|NEED|HAVE)$/ && match(said[i], "^" kept[j] "[.,:]?$")) said[i] = word[words - last + j] substr(said[i], length(kept[j]) + 1)
                printf "%s%s", said[i], (i < many ? " " : "\n")
            }
        }' "$top/docs/using/REFUSALS.md"
}

# NAME BYTE: the line of a byte of the file at $path with a caret under it, and of a long line what is round it.
show_byte() {
    visible <"$path" | AT=$2 NAME=$(shown_name "$1") awk '
        BEGIN { at = ENVIRON["AT"] + 0 }
        { text = $0; row = NR; if (at <= before + length(text)) { column = at - before; found = 1; exit } before += length(text) + 1 }
        END {
            if (!found) column = length(text)
            from = column > 90 ? column - 60 : 0
            shown = substr(text, from + 1, 120)
            mark = substr(shown, 1, column - from); gsub(/[\200-\277]/, "", mark); gsub(/[^\t]/, " ", mark)
            gsub(/\r/, "", shown)
            print ENVIRON["NAME"] ":" row ":" column + 1
            print (from ? ".." : "") shown (length(text) > from + 120 ? ".." : "")
            print (from ? "  " : "") mark "^"
        }'
}

# NAME N: a line of the file at $path.
show_line() {
    printf '%s:%d\n' "$(shown_name "$1")" "$2"
    sed -n "$2{p;q;}" "$path" | tr -d '\r' | visible | cut -c1-160
}
