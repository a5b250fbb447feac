# shellcheck shell=sh
# Read by ./mate and the scripts beside it, by ./explain and by scripts/build.sh: `find_program` puts the path of the program $name of the checkout $top into
# $program, and the line of the kit that proved it into $kit.
#
# Most calls need only what this file has: the last look at the checkout noted which program is of its texts, with the state of each file and folder (device,
# inode and time of change). While all of these are the same, so are the texts, and none is read. All else is in scripts/build.sh.
# Where no program can be had, the status is 125, which is none of the programs'.
set -u

say() {
    echo "$name: $*" >&2
}

# Puts the user's cache into $cache, and the folder of what was seen of this checkout into $seen. Without a home there is no place for them: a folder that others
# can write isn't taken.
find_cache() {
    cache=${MATE_CACHE-}
    case $cache in
    /*) ;;
    ?*) cache=$PWD/$cache ;;
    *) cache=${XDG_CACHE_HOME-}
        case $cache in
        # (a relative one is to be ignored, by its own definition)
        /*) ;;
        *) cache=${HOME-}
            [ -n "$cache" ] || cache=$(getent passwd "$(id -u)" | cut -d: -f6)
            cache=$cache/.cache ;;
        esac
        case $cache in
        /.cache | [!/]*) cache=; return 1 ;;
        esac
        cache=$cache/mate-build ;;
    esac
    # (a path is a file's name with other signs between its folders, or too long for one)
    seen='' left=$top
    if [ ${#top} -gt 200 ]; then left=$(printf %s "$top" | cksum); fi
    while :; do
        case $left in */*) seen=$seen${left%%/*}% left=${left#*/} ;; *) break ;; esac
    done
    seen=$cache/checkouts/$seen$left,$name
}

# PATH PART ..: whether the folders and links on the way to PATH are the caller's or root's, and the parts the caller's alone, and nobody else can write to any of
# them. The parts must be there.
is_own() {
    left=$1
    shift
    strict=$#
    [ $# -eq 0 ] || [ -O "$1" ] || return 1
    # the way: each folder from the top, and where one is a link, where that leads
    way='' links=0
    while [ -n "$left" ]; do
        step=${left%%/*}
        case $left in */*) left=${left#*/} ;; *) left= ;; esac
        case $step in
        '' | .) continue ;;
        ..) way=${way%/*}; continue ;;
        esac
        set -- "$@" "$way/$step"
        if [ -h "$way/$step" ]; then
            links=$((links + 1)) && [ $links -le 40 ] && step=$(readlink -- "$way/$step") || return 1
            case $step in /*) way= ;; esac
            left=$step${left:+/$left}
        else
            way=$way/$step
        fi
    done
    set -- "$@" /
    count=$#
    LC_ALL=C find "$@" -maxdepth 0 -printf '%y %m %U\n' 2>/dev/null | {
        # (the first part is the caller's)
        me=${uid-}
        while read -r type mode owner; do
            count=$((count - 1)) strict=$((strict - 1))
            : "${me:=$owner}"
            case 000$mode in *[2367]? | *[2367]) open=yes ;; *) open= ;; esac
            if [ $strict -ge 0 ]; then
                [ "$owner" = "$me" ] && [ -z "$open" ] && [ "$type" != l ] || exit 1
            else
                [ "$owner" = "$me" ] || [ "$owner" = 0 ] || exit 1
                # (in a folder with the sticky bit nobody replaces what is another's)
                case $type:000$mode in l:* | ?:*[1357]???) ;; *) [ -z "$open" ] || exit 1 ;; esac
            fi
        done
        [ $count -eq 0 ]
    }
}

# FILE: becomes the command that tells the states of the places that the file has, ended by NUL, as paths from crates/ or whole ones. $by is find, or stat where find
# takes no such file.
tell_states() {
    CDPATH='' cd -- "$top/crates" || exit
    LC_ALL=C
    export LC_ALL
    case $by in
    find) exec find -files0-from "$1" -maxdepth 0 -printf '%D %i %C@\n' ;;
    *) exec xargs -0 -a "$1" stat -c '%d %i %.9Z' ;;
    esac 2>/dev/null
}

# Whether all is as the last look saw it; then $program is the program.
is_as_seen() {
    kit='' rt=''
    [ -f "$seen/look" ] || return 1
    { IFS= read -r look && read -r by parts && IFS= read -r sum && IFS= read -r program && IFS= read -r rt && IFS= read -r kit; } <"$seen/look" || { kit=''; return 1; }
    look=$seen/$look
    # (an earlier version noted other lines)
    case $parts in [2-4]) ;; *) return 1 ;; esac
    [ -x "$program" ] || return 1
    case $program in
    "$cache"/*)
        # another kit is seen, and one that is gone is not missed
        found=$(command -v rt) && [ "$found" != "$rt" ] && return 1
        is_own "$cache" "$cache/." "$cache/checkouts" "$seen" "$seen/look" "$look" "$cache/programs" "${program%/*}" "$program" & ;;
    *) is_own "$cache" "$cache/." "$cache/checkouts" "$seen" "$seen/look" "$look" & ;;
    esac
    own=$!
    # (a part for each processor)
    part=1 looks=
    while [ $part -lt "$parts" ]; do
        tell_states "$look/places.$part" | cmp -s - "$look/states.$part" &
        looks="$looks $!" part=$((part + 1))
    done
    tell_states "$look/places.$part" | cmp -s - "$look/states.$part" || return 1
    for part in $looks $own; do
        wait "$part" || return 1
    done
}

find_program() {
    cache='' seen=''
    if find_cache; then
        is_as_seen && return
    fi
    # shellcheck source=scripts/build.sh
    . "$top/scripts/build.sh"
    seek_program
}
