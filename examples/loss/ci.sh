#!/bin/sh
# A template for continuous integration: runs a sweep, and ends with status 1 where its table doesn't keep some limits. Copy it and ci.yml
# beside a world of your own, and change the first block. If CI_OUT names a folder, ci.csv with all runs and ci.txt with the table stay
# there; without it nothing stays.
set -eu
machine=examples/loss/machine.toml
world=examples/loss/sweep.txt
name=loss values=0,200 seeds=1..50
column=count_spread_ms # the ms from the first install of the newest version of `count` to that on the last node
least_share=0.95       # for each value the version comes to all nodes in at least this share of the runs,
most_p95=45000         # and in 95 of 100 runs takes at most so many ms

out=${CI_OUT-}
[ -n "$out" ] || { out=$(mktemp -d); trap 'rm -rf "$out"' EXIT; }
mkdir -p "$out"
sweep=${MATE_SWEEP:-mate-sweep}
"$sweep" --out "$out/ci.csv" --anew --mate "${MATE:-mate}" "$machine" "$world" "$name=$values" "random=$seeds"
"$sweep" --out "$out/ci.csv" --percentiles 95 --table "$name" "$column" >"$out/ci.txt"
cat "$out/ci.txt"
# the columns: value, runs, failed, have, share, low, high, p95, low, high
awk -v share="$least_share" -v p95="$most_p95" '
    NR == 1 { next }
    $3 > 0 { print $1 ": " $3 " runs failed"; wrong = 1 }
    $5 < share { print $1 ": the share is below " share; wrong = 1 }
    $8 == "none" || $8 > p95 { print $1 ": the 95th percentile is over " p95; wrong = 1 }
    END { exit wrong }' "$out/ci.txt"
