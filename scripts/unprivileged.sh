# shellcheck shell=bash
# Read by checks that try names which are commands, and links and files of others, so that nothing can go wrong beyond their own folder.
# `unprivileged PROGRAM FOLDER.. -- WORD..` does nothing for a user. For root it runs the check $0 with these words as a user who owns nothing,
# in a copy of these folders of the checkout and with a copy of PROGRAM (or none) as $MATE, and ends with its status. Where no other user can
# run it, it says so and returns.
unprivileged() {
    [ "$(id -u)" = 0 ] || return 0
    local program=$1 home folders=() as
    shift
    while [ "$1" != -- ]; do folders+=("$1"); shift; done
    shift
    home=$(mktemp -d) || exit 1
    # shellcheck disable=SC2064
    trap "rm -rf '$home'" EXIT
    mkdir "$home/top" "$home/tmp" && cp -R --parents "${folders[@]}" "$home/top/" || exit 1
    [ -z "$program" ] || cp -L "$program" "$home/mate" || exit 1
    chmod -R a+rX "$home" && chown -R 65534:65534 "$home" || exit 1
    as=(setpriv --reuid 65534 --regid 65534 --clear-groups --no-new-privs env HOME="$home" TMPDIR="$home/tmp" MATE="${program:+$home/mate}")
    if "${as[@]}" sh -c 'cd "$1" && : >"$TMPDIR/x" && { [ -z "$2" ] || python3 -c ""; }' - "$home/top" "$(command -v python3)" >/dev/null 2>&1; then
        (cd "$home/top" && "${as[@]}" "scripts/${0##*/}" "$@")
        exit
    fi
    echo "${0##*/}: no other user can run it here, so root does"
    trap - EXIT
    rm -rf "$home"
}
