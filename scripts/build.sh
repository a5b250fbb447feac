# shellcheck shell=sh
# Read where scripts/look.sh doesn't know the program any more: `seek_program` finds or builds the program $name of the checkout $top, and puts its path into $program.
#
# A program is named by a sum over all texts that it is made from. dist/ holds the programs of the last landing, with the sums of their texts: where the checkout's
# texts have that sum, the program there is taken, after a look at its own sum. Else the program is built by proof, and kept in the user's cache by the sum of its
# texts and of the kit. So a program is never old, whatever the times of files say, and all checkouts of a user share what was built.
# The cache holds
#   programs/KEY/      a program, and the names of the libraries that it was made from
#   libraries/NAME-SUM/  a proved crate (scripts/prove-crates)
#   checkouts/PATH,NAME/    what the last look at a checkout saw (scripts/look.sh)
#   work/, lock        a copy of the crates that are proved now, which may be edited meanwhile; who proves holds the lock
#   kit                the line of the kit that was used last
set -u
platform=x86_64-linux
uid=$(id -u)

# Puts the crate of the program $name into $crate.
find_crate() {
    while read -r word crate; do
        [ "$word" != "$name" ] || return 0
    done <"$top/scripts/programs"
    say "scripts/programs has no program of this name"
    return 125
}

# The names of the programs, a line each.
program_names() {
    sed -n 's/^\([a-z][a-z-]*\) .*/\1/p' "$top/scripts/programs"
}

# The crates that the program of the crate $crate (or of several) stands on, itself first, by crates.txt.
needed_crates() {
    awk -F: -v program="$crate" '
        { sub(/#.*/, "") }
        NF > 1 { split($1, head, " "); below[head[1]] = $2 }
        END {
            last = split(program, queue, " ")
            for (i = 1; i <= last; i++) {
                crate = queue[i]
                if (!(crate in below) || crate in seen || crate !~ /^[a-z][a-z0-9_]*$/) continue
                seen[crate]
                print crate
                count = split(below[crate], deps, " ")
                for (j = 1; j <= count; j++) queue[++last] = deps[j]
            }
        }' "$1/crates.txt"
}

# TOP CRATE ..: the folders of crates/ that these crates are made from, ended by NUL: sources, definitions and proofs, and data.
parts_of() {
    from=$1
    shift
    for crate_of_part; do
        for part in src specs proofs data; do
            [ ! -d "$from/crates/$crate_of_part/$part" ] || printf '%s\0' "$crate_of_part/$part"
        done
    done
}

# TOP CRATE ..: the lines of crates.txt of these crates, each behind those below it, as they are there.
lines_of() {
    lines_from=$1
    shift
    awk -v crates="$*" 'BEGIN { count = split(crates, it, " "); for (i = 1; i <= count; i++) needed[it[i]] }
        /:/ { split($1, head, ":") } /:/ && head[1] in needed' "$lines_from/crates.txt"
}

# TOP: what the program's sum is of: HANDLES, the crates' lines of crates.txt, and a line for each text with its sum.
texts_of() {
    from=$1
    # shellcheck disable=SC2046
    set -- $(needed_crates "$1")
    (
        apart=$(mktemp -d 2>/dev/null)
        trap 'rm -rf ${apart:+"$apart"}' EXIT
        trap 'exit 130' INT TERM HUP QUIT
        cd "$from/crates" && cat ../HANDLES 2>/dev/null
        lines_of "$from" "$@"
        parts_of "$from" "$@" | xargs -0 -r sh -c 'find "$@" -type f \( -name "*.rt" -o -name "*.antt" -o -path "*/data/*" \) -print0' sh |
            if [ -n "$apart" ]; then
                # (each processor sums up some of them, into a file of its own)
                xargs -0 -r -n 600 -P "$(nproc)" sh -c 'exec sha256sum "$@" >"$0/$$"' "$apart"
                cat "$apart"/*
            else
                xargs -0 -r sha256sum
            fi | LC_ALL=C sort -k 2
    )
}

# TOP: the sum of these texts.
sum_of() {
    texts_of "$1" | sha256sum | cut -c1-32
}

# The crate of each program and the sum of its texts, a line each.
program_sums() {
    for name in $(program_names); do
        find_crate && echo "$crate $(sum_of "$top")" || return
    done
}

# SUMS: notes beside each program that the gate built which texts it was built from, if these are still the checkout's; scripts/dist wants to know.
note_proved() {
    [ "$1" = "$(program_sums)" ] || return 0
    printf '%s\n' "$1" | while read -r of sum; do
        printf '%s\n' "$sum" "$kit" >"$top/crates/$of/out/proved" || return
    done
}

# TOP: a line for each crate of the program with a sum of its own texts, to tell which one differs.
crate_sums() {
    texts_of "$1" | awk '
        / \*?[a-z][a-z0-9_]*\// { path = $0; sub(/^[^ ]* [ *]/, "", path); sub(/\/.*/, "", path); print path, $0; next }
        { split($0, head, /[ :]/); print (/^[a-z][a-z0-9_]*[ :]/ ? head[1] : "HANDLES"), $0 }' | LC_ALL=C sort | {
        at='' lines=''
        while read -r word line; do
            if [ "$word" != "$at" ]; then
                [ -z "$at" ] || printf '%s %s\n' "$at" "$(printf %s "$lines" | sha256sum | cut -c1-32)"
                at=$word lines=''
            fi
            lines="$lines$line
"
        done
        printf '%s %s\n' "$at" "$(printf %s "$lines" | sha256sum | cut -c1-32)"
    }
}

# Refuses what the kit refuses, too: links among the texts, which a sum and a look wouldn't see through, and what is neither a file nor a folder.
refuse_links() {
    # shellcheck disable=SC2046
    odd=$(set -- $(needed_crates "$top")
        cd "$top" && {
            find crates crates.txt HANDLES $(printf 'crates/%s ' "$@") -maxdepth 0 ! -type d ! -type f -print -quit
            cd crates && parts_of "$top" "$@" | xargs -0 -r sh -c 'find "$@" ! -type d ! -type f -printf "crates/%p\n" -quit' sh
        } 2>/dev/null | head -n 1 | tr '\000-\011\013-\037\177' '?')
    [ -z "$odd" ] || { say "$odd is a link, or no plain file or folder: put the file or folder itself there"; return 125; }
}

# Finds the kit: its command in $rt, the folder of what this is in $rt_folder, the file of its line in $kit_file, and the line in $kit. Without a kit, $kit is the
# line of the one that was used last for any checkout.
find_kit() {
    kit_file='' kit='' rt_folder=''
    if rt=$(command -v rt); then
        rt_folder=$(readlink -f -- "$rt")
        rt_folder=${rt_folder%/*}
        kit_file=${rt_folder%/*}/KIT-ID
        if [ -r "$kit_file" ]; then IFS= read -r kit <"$kit_file"; else kit_file='' kit=$(rt version | head -n 1); fi
    else
        rt=
        # (scripts/install with programs of its own looks for no cache)
        [ -z "${cache-}" ] || [ ! -f "$cache/kit" ] || IFS= read -r kit <"$cache/kit"
    fi
}

# PART: all files and folders of this part of the crates whose change may change the sum, as paths from crates/ or whole ones, ended by NUL.
places_of() {
    # shellcheck disable=SC2046
    set -- "$1" $(needed_crates "$top" | awk -v part="$1" -v parts="$parts" 'NR % parts == part % parts')
    [ "$1" != 1 ] || printf '%s\0' ../HANDLES ../crates.txt ../scripts/programs
    shift
    [ $# -eq 0 ] || printf '%s\0' "$@"
    (cd "$top/crates" && parts_of "$top" "$@" | xargs -0 -r sh -c 'find "$@" -print0' sh)
}

# Begins a look, before any text is read: notes the states of all places in a new folder of $seen, which is put into $look. Where that can't be, nothing is noted,
# and the next call reads all texts again.
begin_look() {
    look=
    [ -n "$cache" ] && have_cache 2>/dev/null || return 0
    look=$( (umask 022; mkdir -p "$seen" && is_own "$cache" "$cache/." "$cache/checkouts" "$seen" && mktemp -d "$seen/XXXXXX") 2>/dev/null) || { look=; return 0; }
    by='find'
    printf '/\0' | find -files0-from - -maxdepth 0 >/dev/null 2>&1 || by=stat
    parts=$(nproc)
    [ "$parts" -ge 2 ] || parts=2
    [ "$parts" -le 4 ] || parts=4
    (
        umask 022
        chmod 755 "$look"
        for part in $(seq "$parts"); do
            { places_of "$part" >"$look/places.$part" && states_of "$look/places.$part" >"$look/states.$part" || : >"$look/failed"; } &
        done
        wait
        [ ! -e "$look/failed" ] || exit
        # A text that is changed once it was read must get another time than it has now. So the clock of the file system, whose ticks are 10 ms at most, has to be
        # past all times that are there; one that has whole seconds alone needs two of them.
        awk -v now="$(date +%s.%N)" '
            $3 > newest { newest = $3 }
            $3 !~ /[.]0*$/ { is_fine = 1 }
            END { age = now - newest; exit age > (is_fine ? 0.05 : 2.1) ? 0 : is_fine && age > -0.05 ? 1 : 2 }' "$look"/states.*
        case $? in
        0) ;;
        1) sleep 0.1 ;;
        *) exit 1 ;;
        esac
    ) 2>/dev/null || drop_look
}

# FILE: the states of the places that it has.
states_of() {
    (tell_states "$1")
}

drop_look() {
    [ -z "$look" ] || rm -rf "$look"
    look=
}

# Ends it: if all places are as they were, later calls take $program while they stay so.
note_look() {
    [ -n "$look" ] || return 0
    (
        umask 022
        for part in $(seq "$parts"); do
            { states_of "$look/places.$part" | cmp -s - "$look/states.$part" || : >"$look/failed"; } &
        done
        wait
        [ ! -e "$look/failed" ] || exit
        printf '%s\0' "$program" ${rt:+"$rt"} ${kit_file:+"$kit_file"} >"$look/more"
        states_of "$look/more" >"$look/state" && [ "${state:-$(head -n 1 "$look/state")}" = "$(head -n 1 "$look/state")" ] &&
            cat "$look/more" >>"$look/places.1" && cat "$look/state" >>"$look/states.1" && rm "$look/more" "$look/state" &&
            printf '%s\n' "$top" >"$seen/top" && printf '%s\n' "${look##*/}" "$by $parts" "$sum" "$program" "$rt" "$kit" >"$look.new" && mv "$look.new" "$seen/look" || exit
        for old in "$seen"/??????; do
            [ "$old" = "$look" ] || rm -rf "$old"
        done
    ) 2>/dev/null || drop_look
}

# Makes the folder of the cache. It is refused if it, or a folder or link on the way to it, is another user's or can be written by others: what stands there could be
# anyone's.
have_cache() {
    [ -n "$cache" ] || { say "HOME isn't set, so there is no folder for programs: set it, or MATE_CACHE"; return 125; }
    near=$cache
    while [ -n "$near" ] && [ ! -e "$near" ] && [ ! -h "$near" ]; do near=${near%/*}; done
    [ -d "${near:-/}" ] || { say "the folder $cache can't be made: $near is no folder"; return 125; }
    if [ "$near" = "$cache" ]; then set -- "$cache/."; else set --; fi
    is_own "${near:-/}" "$@" || {
        say "the folder $cache, or one on the way to it, is another user's, or others can write to it: set MATE_CACHE to a folder of your own, or take their right to write away"
        return 125
    }
    (umask 022; mkdir -p "$cache") 2>/dev/null && [ -w "$cache" ] || { say "the folder $cache can't be written"; return 125; }
}

# Whether dist/ has a program of this name: then the sum of its texts is in $recorded, its own in $own, and the line of the kit that proved it in $line.
seek_recorded() {
    dist=dist/$platform recorded='' own='' line=''
    [ -f "$top/$dist/programs" ] || return 1
    while read -r word recorded own line; do
        [ "$word" != "$name" ] || return 0
    done <"$top/$dist/programs"
    return 1
}

# Puts the program of dist/ into $program, if the checkout's texts are those that it was built from. Else $because says what differs.
seek_dist() {
    because=
    seek_recorded && [ "$(uname -sm)" = 'Linux x86_64' ] || return 1
    [ "$recorded" = "$sum" ] || { because=texts; return 1; }
    program=$top/$dist/$name
    # (its state before it is read, which the look compares)
    state=
    [ -z "$look" ] || state=$(printf '%s\0' "$program" >"$look/more" && states_of "$look/more")
    if [ -h "$program" ] || [ "$(sha256sum 2>/dev/null <"$program" | cut -d' ' -f1)" != "$own" ]; then
        say "$dist/$name is damaged: its SHA-256 isn't the one that $dist/programs records (\`git checkout -- $dist\` brings it back)"
        return 1
    fi
    rt='' kit_file='' kit=$line
    # (where nothing may be executed in a checkout, a copy is)
    [ -x "$program" ] || {
        [ -n "$cache" ] && find_key && [ ! -h "$cache/programs" ] && [ ! -h "$made" ] && keep_program "$program" "$name" &&
            is_own "$cache" "$cache/." "$cache/programs" "$made" "$made/$name" && program=$made/$name state=
    }
}

# Puts the folder of the cache for a program of these texts by this kit into $made.
find_key() {
    made=$cache/programs/$(printf '%s\n' "$kit" "$sum" | sha256sum | cut -c1-32)
}

# FILE NAME: copies a file into $made.
keep_program() {
    (umask 022; mkdir -p "$made" && cp "$1" "$made/$2.new" && chmod 755 "$made/$2.new" && mv "$made/$2.new" "$made/$2") ||
        { say "the program can't be copied to $made"; return 125; }
}

# Puts the program of the cache into $program, if it has been built of the checkout's texts.
seek_built() {
    [ -n "$cache" ] || return 1
    find_kit
    find_key
    [ -x "$made/$name" ] || return 1
    is_own "$cache" "$cache/." "$cache/programs" "$made" "$made/$name" || return
    program=$made/$name state=
}

# What differs from the texts of dist/, in $because: a phrase, or nothing where there is no such program.
find_cause() {
    [ "$because" = texts ] || return 0
    differing=$(crate_sums "$top" | grep -vxF -f "$top/$dist/crates" | cut -d' ' -f1)
    first=$(printf '%s\n' "$differing" | head -n 1)
    others=$(($(printf '%s\n' "$differing" | wc -l) - 1))
    case $first in
    HANDLES) because=HANDLES ;;
    *) because="the text of crates/$first" ;;
    esac
    [ $others -eq 0 ] || because="$because (and of $others more)"
    because="$because isn't the one that $dist/$name was built from"
}

# FROM TO: copies all that the program is made from.
copy_texts() {
    # (what is read-only in a checkout is so in a copy)
    [ ! -d "$2" ] || chmod -R u+w "$2"
    from=$1 to=$2
    # shellcheck disable=SC2046
    set -- $(needed_crates "$1")
    rm -rf "$to/crates" "$to/HANDLES" && mkdir -p "$to/crates" && cp "$from/HANDLES" "$to/" && echo "$kit" >"$to/kit" && lines_of "$from" "$@" >"$to/crates.txt" || return 1
    for copied; do
        mkdir "$to/crates/$copied" || return 1
        for part in src specs proofs data; do
            [ ! -d "$from/crates/$copied/$part" ] || cp -R "$from/crates/$copied/$part" "$to/crates/$copied/" || return 1
        done
    done
    chmod -R u+w "$to"
}

# $MATE_JOBS, or one job a processor, and one for each 2.5 GB of free memory.
jobs() {
    awk -v most="$(nproc)" -v asked="${MATE_JOBS-}" '
        /^MemAvailable/ { jobs = int($2 / 2500000) }
        END { print (asked + 0 > 0 ? int(asked) : jobs < 1 ? 1 : jobs < most ? jobs : most) }' /proc/meminfo
}

# FILE TO: copies a program without its table of symbols, by the kit's own LLVM, so that the bytes are the same wherever this is done.
strip_program() {
    tool=$(mktemp -d) || return
    ln -s "${rt_folder%/*}/toolchain/bin/clang" "$tool/llvm-strip" && "$tool/llvm-strip" --strip-all --keep-section=.comment -o "$2" "$1"
    set -- $?
    rm -rf "$tool"
    return "$1"
}

# Takes the lock of the cache, and then refuses what in it is a link or another's.
lock_cache() {
    command -v flock >/dev/null || { say "the command flock isn't on the PATH"; return 125; }
    odd=
    [ ! -h "$cache/lock" ] || odd=$cache/lock
    # (in a shell of its own, since one that can't be opened ends a shell)
    [ -n "$odd" ] || (: >>"$cache/lock") 2>/dev/null || { say "the folder $cache can't be written"; return 125; }
    if [ -z "$odd" ]; then
        exec 9>>"$cache/lock"
        flock 9 || { say "the lock $cache/lock can't be had"; return 125; }
        # (nobody else's run changes these now; in checkouts/ they do)
        odd=$(find "$cache" -path "$cache/checkouts" -prune -o -name 'prove.*' -prune -o \( -type l -o ! -uid "$uid" -o -perm /022 \) -print -quit 2>/dev/null)
    fi
    [ -z "$odd" ] || { say "$odd is a link, or another user's, or others can write to it: remove it"; return 125; }
}

# Removes what is so many days old, but what a checkout that still exists has used last; $cache/lock is held.
clean_cache() {
    used="
"
    for noted in "$cache"/checkouts/*/look; do
        { read -r _ && read -r _ && read -r _ && IFS= read -r used_program; } <"$noted" && IFS= read -r top_of <"${noted%/look}/top" || continue
        # (a checkout that is gone, and what an older one noted)
        [ -x "$top_of/mate" ] && [ -x "$used_program" ] || { rm -rf "${noted%/look}"; continue; }
        used_program=${used_program%/*}
        used="$used${used_program##*/}
$(cat "$used_program/libraries")
"
    done 2>/dev/null
    for kept in "$cache"/programs/* "$cache"/libraries/*; do
        case $used in *"
${kept##*/}
"*) continue ;; esac
        [ -z "$(find "$kept" -maxdepth 0 -mmin "+$(($1 * 1440))")" ] || rm -rf "$kept"
    done 2>/dev/null
    # (what a stopped scripts/prove left)
    find "$cache" -mindepth 1 -maxdepth 1 -name 'prove.*' -mmin +1440 -exec rm -rf {} + 2>/dev/null
    return 0
}

# WORD ..: runs scripts/prove-crates, in a process group of its own, so that a stopped script stops all that it started.
prove() {
    setsid python3 "$top/scripts/prove-crates" "$@" &
    prover=$!
    trap 'env kill -TERM -- "-$prover" 2>/dev/null; exit 130' INT TERM HUP QUIT
    wait "$prover"
    set -- $?
    trap - INT TERM HUP QUIT
    [ "$1" -eq 0 ] || { say "the build failed"; return 125; }
}

# Sees that all is there which a proof needs.
can_prove() {
    [ -n "$rt" ] || { say "${1-}the command rt of the Rattle kit isn't on the PATH${2-}"; return 125; }
    for needed in python3 setsid; do
        command -v "$needed" >/dev/null || { say "the command $needed isn't on the PATH"; return 125; }
    done
}

# Builds the program whose texts are those of the checkout by now; $cache/lock is held.
build() {
    work=$cache/work
    umask 022
    copy_texts "$top" "$work" || { say "the crates can't be copied to $work"; return 125; }
    # the copy is what is built, whatever becomes of the checkout meanwhile
    sum=$(sum_of "$work")
    find_key
    program=$made/$name
    [ ! -x "$program" ] || return 0
    prove --because "$because" "$work" "$(jobs)" "$cache/libraries" "$crate" || return
    mkdir -p "$made" && strip_program "$work/built/$crate" "$work/built/$crate.stripped" || { say "the program can't be stripped of its symbols"; return 125; }
    keep_program "$work/built/libraries" libraries && keep_program "$work/built/$crate.stripped" "$name" && echo "$kit" >"$cache/kit" || return 125
    clean_cache 30
}

# Sees that all is there which a build needs, and builds.
build_locked() {
    have_cache && find_cause && can_prove "${because:-the program must be built}, and " "${because:+; $dist/$name runs the program as it was}" || return
    because=${because:+"$because; $dist/$name runs the program as it was"}
    lock_cache || return
    mask=$(umask)
    build
    built=$?
    umask "$mask"
    exec 9>&-
    return $built
}

seek_program() {
    find_crate && refuse_links || return
    begin_look
    sum=$(sum_of "$top")
    asked=$sum
    seek_dist || seek_built || build_locked || { drop_look; return 125; }
    # (what changed meanwhile is seen by the next call)
    if [ "$sum" = "$asked" ]; then note_look; else drop_look; fi
    return 0
}
