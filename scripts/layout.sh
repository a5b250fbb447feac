# shellcheck shell=sh
# Read by scripts/install and scripts/package, behind scripts/look.sh and scripts/build.sh: what a user needs, as a tree of files and links.
#   bin/NAME                    the programs of scripts/programs; mate-explain (./explain), mate-sweep (scripts/sweep) and mate-page (scripts/page)
#   share/mate/                 documents, examples and editors (the files of scripts/installed), with links, so that what they show runs there
#   share/man, share/bash-completion, share/zsh, share/fish    manual pages, and completion
set -u

# Puts the paths of all programs, each that of a variable of its name as $MATE_VIEW or else the one that scripts/build gives, into $paths, a line each; and what they
# were built from into $texts.
find_programs() {
    paths=
    for name in $(program_names); do
        eval "program=\${$(printf %s "$name" | tr a-z- A-Z_)-}"
        [ -n "$program" ] || { find_program; } || return
        paths="$paths$program
"
    done
    name=mate
    find_crate && sum=$(sum_of "$top") || return
    if seek_recorded && [ "$recorded" = "$sum" ]; then kit=$line; else find_kit; fi
    texts="texts $(printf %.12s "$sum"), $kit"
}

# TO: makes the tree in a new folder.
lay_out() {
    (
        umask 022
        share=$1/share/mate
        mkdir -p "$1/bin" "$share" "$1/share/man/man1" "$1/share/bash-completion/completions" "$1/share/zsh/site-functions" "$1/share/fish/vendor_completions.d" || exit
        (cd "$top" && xargs cp --parents --no-preserve=all -t "$share") <"$top/scripts/installed" || exit
        chmod 755 "$share/explain" "$share/scripts/sweep" "$share/scripts/page" && printf '%s\n%s\n' "$version" "$texts" >"$share/scripts/version" || exit
        for name in $(program_names); do
            program=${paths%%
*} paths=${paths#*
}
            cp --no-preserve=all "$program" "$1/bin/$name" && chmod 755 "$1/bin/$name" && ln -s "../../bin/$name" "$share/$name" || exit
        done
        # (a script, unless there is a program of its name)
        [ -e "$1/bin/mate-explain" ] || ln -s ../share/mate/explain "$1/bin/mate-explain" || exit
        [ -e "$1/bin/mate-sweep" ] || ln -s ../share/mate/scripts/sweep "$1/bin/mate-sweep" || exit
        [ -e "$1/bin/mate-page" ] || ln -s ../share/mate/scripts/page "$1/bin/mate-page" || exit
        cd "$share" || exit
        for page in docs/using/*.1; do
            mv "$page" ../man/man1/ && ln -s "../../../man/man1/${page##*/}" "$page" || exit
        done
        for file in editors/bash/*.bash; do
            [ -f "$file" ] || continue
            mv "$file" "../bash-completion/completions/$(basename "$file" .bash)" && ln -s "../../../bash-completion/completions/$(basename "$file" .bash)" "$file" || exit
        done
        for file in editors/zsh/_*; do
            [ -f "$file" ] || continue
            mv "$file" ../zsh/site-functions/ && ln -s "../../../zsh/site-functions/${file##*/}" "$file" || exit
        done
        for file in editors/fish/*.fish; do
            [ -f "$file" ] || continue
            mv "$file" ../fish/vendor_completions.d/ && ln -s "../../../fish/vendor_completions.d/${file##*/}" "$file" || exit
        done
        # (shells look for a file of the command's name)
        cd .. || exit
        for name in ../bin/*; do
            name=${name##*/}
            [ -e "bash-completion/completions/$name" ] || ln -s mate "bash-completion/completions/$name" || exit
            [ -e "fish/vendor_completions.d/$name.fish" ] || ln -s mate.fish "fish/vendor_completions.d/$name.fish" || exit
        done
    )
}
