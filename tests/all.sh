#!/bin/sh
# Runs the test commands given as words, one after the other, and adds up the 'N passed, M failed' that each prints
# as its last line. A command that ends without one, or fails though nothing did, counts as one failure.
passed=0
failed=0
log=$(mktemp) || exit 2
trap 'rm -f "$log" "$log.status"' EXIT
for command in "$@"; do
    printf '== %s\n' "$command"
    { sh -c "$command"; echo $? >"$log.status"; } 2>&1 | tee "$log"
    counts=$(tail -n 1 "$log" | sed -n 's/^\([0-9][0-9]*\) passed, \([0-9][0-9]*\) failed$/\1 \2/p')
    here_failed=${counts#* }
    if [ -z "$counts" ] || { [ "$(cat "$log.status")" != 0 ] && [ "$here_failed" = 0 ]; }; then
        echo "FAILED $command: status $(cat "$log.status")"
        failed=$((failed + 1))
    fi
    if [ -n "$counts" ]; then
        passed=$((passed + ${counts% *}))
        failed=$((failed + here_failed))
    fi
done
echo "$passed passed, $failed failed"
[ "$failed" = 0 ]
