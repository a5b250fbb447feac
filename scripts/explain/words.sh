# shellcheck shell=bash
# Read by ./explain: the words of the command line.

# The commands, a line each, as docs/using/GUIDE.md has them.
synopsis() {
    awk -F' *[|] *' '/^#/ { on = $0 == "## Commands" } on && $2 ~ /^`/ { gsub(/`/, ""); printf "  %-38s%-20s%s\n", $2, $3, $4 }' "$top/docs/using/GUIDE.md"
}

explain_usage() {
    local command=${words[0]-} row
    if [ "$command" = compile ] && [ ${#words[@]} -eq 5 ]; then
        if [[ ! ${words[3]} =~ ^[1-9][0-9]{0,9}$ ]] || [ "${words[3]}" -gt 4294967295 ]; then
            echo 'VERSION is a number from 1 to 4294967295, without leading zeros.'
            return
        fi
        if know_machine "$vm" && ! is_among "${words[2]}" "${handlers[@]}"; then
            echo "The machine has no such handler. Its handlers: $(quoted "${handlers[@]}")."
            return
        fi
    fi
    # (as texts, since a shell's numbers end before: of 20 digits each, they are in the same order)
    # shellcheck disable=SC2071
    if [ "$command" = gen ] && [ ${#words[@]} -eq 3 ] && [[ ! ${words[1]} =~ ^[0-9]{1,20}$ || ${#words[1]} -eq 20 && ${words[1]} > 18446744073709551615 ]]; then
        echo 'NUMBER is a number from 0 to 18446744073709551615.'
        return
    fi
    row=$(synopsis | WORD=$command awk '$1 == ENVIRON["WORD"]')
    if [ -n "$row" ]; then printf 'Its words and its flags are:\n%s\n' "$row"; else printf 'The commands, with their words and flags, are:\n%s\n' "$(synopsis)"; fi
}

show_help() {
    echo 'usage: mate WORDS..      runs one of these commands'
    echo '       explain WORDS..   runs the same, shows the place of a refusal, and says what a source costs and how a run ends'
    synopsis
    echo 'VM is the file of a machine, or `builtin`. Flags may come anywhere before `--`. What each line means: docs/using/GUIDE.md.'
}

# The version, and which program it is: by the sum of the texts that it was proved from, and the kit (which an install has in the second line of scripts/version).
show_version() {
    local version of=''
    { read -r version && read -r of; } <"$top/scripts/version"
    if [ -n "${MATE-}" ]; then of=$program; elif [ -n "${sum-}" ]; then of="texts ${sum:0:12}, $kit"; fi
    echo "mate $version${of:+ ($of)}"
}
