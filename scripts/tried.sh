# shellcheck shell=bash
# Read by checks, at the top of the checkout: `find_tried` puts the program of each line of scripts/programs into a variable of its name, as mate-view into $MATE_VIEW,
# which it exports: the one that is named there already, or the one of this name in the folder $MATE_PROVED, or the one that scripts/build gives. Their names are in
# $tried.
find_tried() {
    local name variable
    mapfile -t tried < <(sed -n 's/^\([a-z][a-z-]*\) .*/\1/p' scripts/programs)
    for name in "${tried[@]}"; do
        variable=$(variable_of "$name")
        if [ -n "${MATE_PROVED-}" ]; then
            printf -v "$variable" %s "$MATE_PROVED/$name"
        elif [ -z "${!variable-}" ]; then
            printf -v "$variable" %s "$(scripts/build "$name")"
        fi
        [ -x "${!variable}" ] || { echo "there is no program $name to try"; return 1; }
        export "${variable?}"
    done
}

# NAME: the name of its variable.
variable_of() { tr a-z- A-Z_ <<<"$1"; }
