#!/bin/sh
# Runs the test commands given as words side by side, and adds up the 'N passed, M failed' that each prints as its last
# line.
work=$(mktemp -d) || exit 2
trap 'rm -rf "$work"' EXIT
n=0
for command in "$@"; do
    n=$((n + 1))
    { sh -c "$command"; echo $? >"$work/$n.status"; } 2>&1 | tee "$work/$n" &
done
wait
set --
while [ "$n" -gt 0 ]; do
    set -- "tail -n 1 $work/$n; exit \$(cat $work/$n.status)" "$@"
    n=$((n - 1))
done
tests/all.sh "$@"
