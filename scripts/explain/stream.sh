# shellcheck shell=bash
# Read by ./explain: the frames of a serial line.

# What is wrong with frames of the stream: each cause once, with the first frame that has it and what to do.
show_frames() {
    local number verb cause
    while read -r number verb cause; do
        case $verb in
        refused) cause=$(status=7 sentence "bad capsule $vm $cause") ;;
        long) cause='It has more than 1,056 bytes: an END may be lost between two capsules.' ;;
        escape) cause='A byte 219 (db) in it stands before neither 220 (dc) nor 221 (dd).' ;;
        *) continue ;;
        esac
        echo "frame $number: $cause"
    done < <("$program" "$@" 2>/dev/null | awk '{ what = $2 " " ($2 == "refused" ? $3 : "") } !seen[what]++')
}
